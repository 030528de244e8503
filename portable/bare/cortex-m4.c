/* Where a Cortex-M4 begins: the first two words of its memory are the top of the stack and the address that
   it starts from. The C library's own start-up, which is there, asks the emulator for the memory of the board
   and puts stack and heap into it. */
void _start(void);

/* Within the first memory of the board mps2-an386, which begins at 0 and holds the code. */
#define TOP_OF_STACK ((void (*)(void))0x400000)

__attribute__((section(".vectors"), used)) static void (*const vectors[2])(void) = {TOP_OF_STACK, _start};

/* What the command's program asks of the system besides POSIX's own functions: its arguments, files by their flags, and errno. Each is written from its
   contract, which the kit's library `os` states and nothing proves; workbench.c declares them and calls rattle_main before anything else. */
#define _POSIX_C_SOURCE 200809L
#include <errno.h>
#include <fcntl.h>
#include <stddef.h>
#include <stdint.h>

void rattle_main(int argc, char **argv);
int64_t rattle_arg(uint64_t i, void *buffer, size_t length);
int32_t rattle_open(const void *path, int32_t flags, uint32_t mode);
int32_t rattle_flock(int32_t fd, int32_t how);
int32_t rattle_errno(void);
void rattle_set_errno(int32_t error);

static int count;
static char **words;

void rattle_main(int argc, char **argv)
{
    count = argc;
    words = argv;
}

/* Argument i at the start of the buffer, and its length; -1 where there is none, -2 where it does not fit, and then the buffer is full. */
int64_t rattle_arg(uint64_t i, void *buffer, size_t length)
{
    unsigned char *to = buffer;
    size_t n;
    if (i >= (uint64_t)count || !words[i])
        return -1;
    for (n = 0; words[i][n]; n++) {
        if (n == length)
            return -2;
        to[n] = (unsigned char)words[i][n];
    }
    return (int64_t)n;
}

/* A descriptor, or -1. The flags come by Linux's numbers; one that is not here is refused. */
int32_t rattle_open(const void *path, int32_t flags, uint32_t mode)
{
    static const struct {
        int32_t given;
        int own;
    } known[] = {{0x1, O_WRONLY}, {0x2, O_RDWR}, {0x40, O_CREAT}, {0x80, O_EXCL}, {0x100, O_NOCTTY}, {0x200, O_TRUNC}, {0x400, O_APPEND}, {0x80000, O_CLOEXEC}};
    int own = O_RDONLY;
    size_t i;
    for (i = 0; i < sizeof known / sizeof known[0]; i++)
        if (flags & known[i].given) {
            flags ^= known[i].given;
            own |= known[i].own;
        }
    if (flags) {
        errno = EINVAL;
        return -1;
    }
    return open(path, own, (mode_t)mode);
}

/* What `std` does with a file is one function there, and a lock is among it. The program asks for none. */
int32_t rattle_flock(int32_t fd, int32_t how)
{
    (void)fd;
    (void)how;
    errno = ENOLCK;
    return -1;
}

/* The program knows errors by these numbers, which are Linux's and most systems'. */
_Static_assert(ENOENT == 2 && EINVAL == 22 && ENAMETOOLONG == 36, "errors by Linux's numbers");

int32_t rattle_errno(void)
{
    return errno;
}

void rattle_set_errno(int32_t error)
{
    errno = error;
}

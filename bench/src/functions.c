/* The addresses of the functions of kaihveto.h, under a name of their own for each compiler: bench/run gives it as FUNCTIONS, and the
   functions' names with the compiler's before them. The order is that of `Library` in src/library.rs. */
#include "kaihveto.h"

typedef void (*function)(void);

extern const function FUNCTIONS[];

const function FUNCTIONS[] = {
    (function)kaihveto_mean,    (function)kaihveto_fit,          (function)kaihveto_fit_ends,  (function)kaihveto_fit_slopes,
    (function)kaihveto_write,   (function)kaihveto_write_slopes, (function)kaihveto_check,     (function)kaihveto_read,
    (function)kaihveto_reading, (function)kaihveto_table,        (function)kaihveto_explain,   (function)kaihveto_swing,
    (function)kaihveto_preheat, (function)kaihveto_refit,        (function)kaihveto_mend,      (function)kaihveto_book_find,
    (function)kaihveto_book_put, (function)kaihveto_book_remove,
};

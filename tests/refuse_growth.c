/* Refuses one growth of memory of the program that it is preloaded into, as if memory were full just then.

       cc -O1 -shared -fPIC -o refuse_growth.so refuse_growth.c -ldl
       REFUSED_GROWTH=3 REFUSED_NOTE=note LD_PRELOAD=./refuse_growth.so PROGRAM ..

   The third call of malloc or realloc answers NULL with ENOMEM, and the file `note` is made at that moment, so that
   the caller can tell a run in which nothing was refused. Every other call passes.

   With REFUSED_WITHIN=1 only the growths within the call that a program marks are counted: it writes the line `called` to
   standard output when its first call begins, and `answered` when that has answered. Then the line `growths N` goes to
   standard error, N their number. */

#include "preloaded.h"

static enum { BEFORE, WITHIN, AFTER } place = BEFORE;
static long growths = 0;

ssize_t write(int descriptor, const void *bytes, size_t size)
{
    NEXT(write);
    char told[64];

    if (descriptor != STDOUT_FILENO)
        return next(descriptor, bytes, size);
    if (place == BEFORE && size >= 6 && !memcmp(bytes, "called", 6))
        place = WITHIN;
    if (place == WITHIN && size >= 8 && !memcmp(bytes, "answered", 8)) {
        place = AFTER;
        if (next(STDERR_FILENO, told, snprintf(told, sizeof told, "growths %ld\n", growths)) < 0)
            abort();
    }
    return next(descriptor, bytes, size);
}

/* Counts one growth, and answers whether it is the one to refuse. */
static int is_refused(void)
{
    const char *path = getenv("REFUSED_NOTE");

    if ((getenv("REFUSED_WITHIN") && place != WITHIN) || ++growths != number_in("REFUSED_GROWTH", -1))
        return 0;
    if (path)
        make_file(path, 0);
    errno = ENOMEM;
    return 1;
}

void *malloc(size_t size)
{
    NEXT(malloc);

    return is_refused() ? NULL : next(size);
}

void *realloc(void *block, size_t size)
{
    NEXT(realloc);

    return is_refused() ? NULL : next(block, size);
}

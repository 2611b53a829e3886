/* What the libraries share that are preloaded into a program. Included before any other header. */

#define _GNU_SOURCE
#include <dlfcn.h>
#include <errno.h>
#include <fcntl.h>
#include <limits.h>
#include <stdarg.h>
#include <stdio.h>
#include <stdlib.h>
#include <string.h>
#include <sys/stat.h>
#include <sys/types.h>
#include <unistd.h>

/* Of a call that a library replaces, the definition behind it. */
#define NEXT(name) \
    static __typeof__(name) *next; \
    if (!next) \
        next = (__typeof__(name) *)dlsym(RTLD_NEXT, #name)

/* The mode that an open has behind its flags if it may make a file. */
#define MODE_BEHIND(flags) \
    ({ \
        va_list more; \
        va_start(more, flags); \
        mode_t mode = va_arg(more, mode_t); \
        va_end(more); \
        mode; \
    })

/* The number in a variable, or another one if it isn't set. */
static inline long number_in(const char *variable, long otherwise)
{
    const char *number = getenv(variable);

    return number ? atol(number) : otherwise;
}

/* True if the variable is this path or word. */
static inline int is_named(const char *text, const char *variable)
{
    const char *named = getenv(variable);

    return named && !strcmp(named, text);
}

/* The answer of a call that is refused. */
static inline int refused(int fault)
{
    errno = fault;
    return -1;
}

/* The path of an open file or folder; `errno` stays. */
static inline const char *path_of(int descriptor, char path[PATH_MAX])
{
    char link[64];
    int fault = errno;
    ssize_t length;

    snprintf(link, sizeof link, "/proc/self/fd/%d", descriptor);
    length = readlink(link, path, PATH_MAX - 1);
    path[length < 0 ? 0 : length] = 0;
    errno = fault;
    return path;
}

/* Makes an empty file, which with O_EXCL isn't there yet. */
static inline void make_file(const char *path, int flags)
{
    int file = open(path, O_WRONLY | O_CREAT | O_CLOEXEC | flags, 0600);

    if (file < 0 || close(file))
        abort();
}

/* Makes a file that isn't there, and removes it. */
static inline void make_briefly(const char *path)
{
    make_file(path, O_EXCL);
    if (unlink(path))
        abort();
}

/* The file of notes, or -1. */
static int note = -1;

/* Opens the file of notes that the variable names. */
static inline void open_note(const char *variable)
{
    NEXT(open);
    const char *path = getenv(variable);

    if (path)
        note = next(path, O_WRONLY | O_CREAT | O_APPEND | O_CLOEXEC, 0600);
}

/* Adds text to the notes, if there is a file of them; `errno` stays. */
static inline __attribute__((format(printf, 1, 2))) void write_down(const char *format, ...)
{
    NEXT(write);
    char text[3 * PATH_MAX];
    int fault = errno, length;
    va_list more;

    va_start(more, format);
    length = vsnprintf(text, sizeof text, format, more);
    va_end(more);
    if (note >= 0 && (length >= (int)sizeof text || next(note, text, length) != length))
        abort();
    errno = fault;
}

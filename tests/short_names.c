/* Gives a program a file system on which names are short, as eCryptfs is.

       cc -O1 -shared -fPIC -o short_names.so short_names.c -ldl
       LONGEST_NAME=143 LD_PRELOAD=./short_names.so PROGRAM ..

   To open a file whose name has more octets, and to give one such a name, is refused with ENAMETOOLONG. */

#include "preloaded.h"

static int is_long(const char *path)
{
    const char *slash = strrchr(path, '/');

    return strlen(slash ? slash + 1 : path) > (size_t)number_in("LONGEST_NAME", NAME_MAX);
}

int open(const char *path, int flags, ...)
{
    NEXT(open);

    return is_long(path) ? refused(ENAMETOOLONG) : next(path, flags, MODE_BEHIND(flags));
}

int openat(int folder, const char *path, int flags, ...)
{
    NEXT(openat);

    return is_long(path) ? refused(ENAMETOOLONG) : next(folder, path, flags, MODE_BEHIND(flags));
}

int rename(const char *from, const char *to)
{
    NEXT(rename);

    return is_long(to) ? refused(ENAMETOOLONG) : next(from, to);
}

int link(const char *from, const char *to)
{
    NEXT(link);

    return is_long(to) ? refused(ENAMETOOLONG) : next(from, to);
}

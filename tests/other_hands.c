/* Does to files what other programs or a failing disk may do, at moments that no test can hit from outside.

       cc -O1 -shared -fPIC -o other_hands.so other_hands.c -ldl
       OTHER_FROM=cur/a:2, OTHER_TO=cur/a:2,S LD_PRELOAD=./other_hands.so PROGRAM ..

   Just before the program looks at the file of OTHER_FROM, that gets the name of OTHER_TO, or is removed if there is none.

   Each call but the first that reads names of a folder answers -1 with EIO if OTHER_BROKEN is the word `listing`.

   While names of a folder are read, the file of OTHER_BRIEF is made and removed again, and the folder gets back the times
   that it had before, except its time of change, which nobody can put back.

   Before each fsync of the file of OTHER_SHRUNK that is longer than OTHER_LENGTH octets, it is cut to nothing, and the fsync
   answers -1 with EIO.

   Just before the file of OTHER_GONE is opened to append to it, it is removed.

   Just before octets are written to the file of OTHER_FULL, the text of OTHER_MAIL is appended to it, once; and then the
   disk is full after one octet: the next write answers -1 with ENOSPC.

   The call for random octets of the number OTHER_RANDOM, counted from 1, answers -1 with ENOSYS. */

#include "preloaded.h"
#include <dirent.h>

int statx(int folder, const char *path, int flags, unsigned int mask, struct statx *found)
{
    NEXT(statx);
    static int moved = 0;
    const char *to = getenv("OTHER_TO");

    if (!moved && is_named(path, "OTHER_FROM")) {
        moved = 1;
        if (to ? rename(path, to) : unlink(path))
            abort();
    }
    return next(folder, path, flags, mask, found);
}

/* Changes the folder, and puts back the times that can be put back. */
static void change_briefly(int folder)
{
    const char *path = getenv("OTHER_BRIEF");
    struct stat before;

    if (!path)
        return;
    if (fstat(folder, &before))
        abort();
    make_briefly(path);
    if (futimens(folder, (struct timespec[]){before.st_atim, before.st_mtim}))
        abort();
}

ssize_t getdents64(int folder, void *names, size_t size)
{
    NEXT(getdents64);
    static int calls = 0;
    ssize_t answer;

    if (is_named("listing", "OTHER_BROKEN") && ++calls > 1)
        return refused(EIO);
    answer = next(folder, names, size);
    change_briefly(folder);
    return answer;
}

int open(const char *path, int flags, ...)
{
    NEXT(open);

    if (flags & O_APPEND && is_named(path, "OTHER_GONE") && unlink(path) && errno != ENOENT)
        abort();
    return next(path, flags, MODE_BEHIND(flags));
}

ssize_t write(int file, const void *octets, size_t count)
{
    NEXT(write);
    static int full = 0;
    const char *mail = getenv("OTHER_MAIL");
    char path[PATH_MAX];
    int other;

    if (!is_named(path_of(file, path), "OTHER_FULL"))
        return next(file, octets, count);
    if (full)
        return refused(ENOSPC);
    full = 1;
    other = mail ? open(path, O_WRONLY | O_APPEND) : -1;
    if (mail && (other < 0 || next(other, mail, strlen(mail)) < 0 || close(other)))
        abort();
    return next(file, octets, 1);
}

int fsync(int file)
{
    NEXT(fsync);
    char path[PATH_MAX];
    struct stat found;

    if (!is_named(path_of(file, path), "OTHER_SHRUNK") || fstat(file, &found)
        || found.st_size <= number_in("OTHER_LENGTH", LONG_MAX))
        return next(file);
    if (truncate(path, 0))
        abort();
    return refused(EIO);
}

int getentropy(void *buffer, size_t length)
{
    NEXT(getentropy);
    static long calls = 0;

    return ++calls == number_in("OTHER_RANDOM", 0) ? refused(ENOSYS) : next(buffer, length);
}

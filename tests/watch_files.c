/* Writes down what a program does to regular files and folders, cuts its writes in two, and refuses one of its calls.

       cc -O1 -shared -fPIC -o watch_files.so watch_files.c -ldl
       WATCH_NOTE=note WATCH_REFUSED=2 LD_PRELOAD=./watch_files.so PROGRAM ..

   Each write, fsync, link, rename and unlink adds a line to the file `note`: its word, how many bytes were written or
   the word `refused` or `failed` or `done`, and the paths, with tabs between. A write to a regular file takes the first
   half of its bytes only, so that the program has to write the rest itself. Of the calls of fsync, link and rename the
   second, here, answers -1 with EIO and does nothing; without WATCH_REFUSED none is refused. With WATCH_NO_LINKS each
   call of link fails with the error of this number, and isn't counted, as on a file system that has no second names. */

#include "preloaded.h"

__attribute__((constructor)) static void begin(void)
{
    open_note("WATCH_NOTE");
}

/* Counts a call of fsync, link or rename, and answers whether it is the one to refuse. */
static int is_refused(void)
{
    static long calls = 0;

    return ++calls == number_in("WATCH_REFUSED", -1);
}

/* Adds the line of a call that has answered so. */
static int answered(const char *word, int is_refused, int answer, const char *first, const char *second)
{
    const char *outcome = is_refused ? "refused" : answer == 0 ? "done" : "failed";

    write_down("%s\t%s\t%s\t%s\n", word, outcome, first, second);
    return answer;
}

ssize_t write(int descriptor, const void *bytes, size_t size)
{
    NEXT(write);
    struct stat about;
    char path[PATH_MAX];
    ssize_t written;

    if (fstat(descriptor, &about) != 0 || !S_ISREG(about.st_mode))
        return next(descriptor, bytes, size);
    written = next(descriptor, bytes, size > 1 ? size / 2 : size);
    write_down("write\t%zd\t%s\t\n", written, path_of(descriptor, path));
    return written;
}

int fsync(int descriptor)
{
    NEXT(fsync);
    char path[PATH_MAX];
    int is_one = is_refused();
    int answer = is_one ? refused(EIO) : next(descriptor);

    return answered("fsync", is_one, answer, path_of(descriptor, path), "");
}

/* Gives a file another name by this call of the system. */
static int named(const char *word, int (*next)(const char *, const char *), const char *from, const char *to)
{
    int is_one = is_refused();

    return answered(word, is_one, is_one ? refused(EIO) : next(from, to), from, to);
}

int rename(const char *from, const char *to)
{
    NEXT(rename);
    return named("rename", next, from, to);
}

int link(const char *from, const char *to)
{
    NEXT(link);
    int fault = number_in("WATCH_NO_LINKS", 0);

    if (!fault)
        return named("link", next, from, to);
    return answered("link", 0, refused(fault), from, to);
}

int unlink(const char *path)
{
    NEXT(unlink);

    return answered("unlink", 0, next(path), path, "");
}

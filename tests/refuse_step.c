/* Refuses a program one of the calls that it makes of the system for the files below a folder and for its link.

       cc -O1 -shared -fPIC -o refuse_step.so refuse_step.c -ldl
       STEP_BELOW=/home/fred STEP_NOTE=note STEP_REFUSED=7 STEP_EFFECT=half LD_PRELOAD=./refuse_step.so PROGRAM ..

   The steps are open, openat, stat, lstat, fstat, lseek, read, write, fsync, ftruncate, rename, link and unlink of a file
   or a folder below that one, and connect, send and recv. Each adds a line to the file `note`: its word and what it is
   for.
   The seventh, here, is answered -1 with EIO, or with the error STEP_ERROR, and its line begins with `refused`. Its
   effect is `none`, `whole`, `half`, the first half of the bytes for a write or a send and nothing for any other step, or
   `zero`: a write is answered 0.
   With STEP_LATER set all later steps are refused too, with no effect. Without STEP_REFUSED none is refused. */

#include "preloaded.h"
#include <sys/socket.h>

static const char *below;

__attribute__((constructor)) static void begin(void)
{
    open_note("STEP_NOTE");
    below = getenv("STEP_BELOW");
}

static int is_below(const char *path)
{
    return below && !strncmp(path, below, strlen(below));
}

static int is_of_file(int descriptor)
{
    char path[PATH_MAX];

    return descriptor != note && is_below(path_of(descriptor, path));
}

enum effect { DONE, NONE, HALF, WHOLE };

/* The answer of a step that is refused. */
static int stopped(void)
{
    return refused(number_in("STEP_ERROR", EIO));
}

/* Counts a step, and answers what is done with it. */
static enum effect taken(const char *word, const char *what)
{
    static long steps = 0;
    long refused_step = number_in("STEP_REFUSED", LONG_MAX);
    int is_first = ++steps == refused_step;
    int is_refused = is_first || (steps > refused_step && getenv("STEP_LATER"));

    write_down("%s%s\t%s\n", is_refused ? "refused " : "", word, what);
    if (!is_refused)
        return DONE;
    if (is_first && is_named("half", "STEP_EFFECT"))
        return HALF;
    return is_first && is_named("whole", "STEP_EFFECT") ? WHOLE : NONE;
}

static enum effect taken_of(const char *word, int descriptor)
{
    char path[PATH_MAX];

    return is_of_file(descriptor) ? taken(word, path_of(descriptor, path)) : DONE;
}

static enum effect taken_at(const char *word, const char *path)
{
    return is_below(path) ? taken(word, path) : DONE;
}

int open(const char *path, int flags, ...)
{
    NEXT(open);
    enum effect effect = taken_at("open", path);
    int answer;

    if (effect == NONE || effect == HALF)
        return stopped();
    answer = next(path, flags, MODE_BEHIND(flags));
    if (effect == DONE)
        return answer;
    if (answer >= 0)
        close(answer);
    return stopped();
}

int openat(int folder, const char *path, int flags, ...)
{
    NEXT(openat);

    return taken_at("openat", path) == DONE ? next(folder, path, flags, MODE_BEHIND(flags)) : stopped();
}

int statx(int folder, const char *path, int flags, unsigned int mask, struct statx *found)
{
    NEXT(statx);
    const char *word = flags & AT_SYMLINK_NOFOLLOW ? "lstat" : "stat";
    enum effect effect = *path ? taken_at(word, path) : taken_of("fstat", folder);

    return effect == DONE ? next(folder, path, flags, mask, found) : stopped();
}

off_t lseek(int descriptor, off_t place, int from)
{
    NEXT(lseek);
    return taken_of("lseek", descriptor) == DONE ? next(descriptor, place, from) : stopped();
}

ssize_t read(int descriptor, void *bytes, size_t size)
{
    NEXT(read);
    return taken_of("read", descriptor) == DONE ? next(descriptor, bytes, size) : stopped();
}

ssize_t write(int descriptor, const void *bytes, size_t size)
{
    NEXT(write);
    enum effect effect = taken_of("write", descriptor);

    if (effect == DONE)
        return next(descriptor, bytes, size);
    if (is_named("zero", "STEP_EFFECT"))
        return 0;
    if (effect != NONE)
        (void)!next(descriptor, bytes, effect == HALF ? size / 2 : size);
    return stopped();
}

int fsync(int descriptor)
{
    NEXT(fsync);
    enum effect effect = taken_of("fsync", descriptor);

    if (effect == DONE)
        return next(descriptor);
    if (effect == WHOLE)
        next(descriptor);
    return stopped();
}

int ftruncate(int descriptor, off_t size)
{
    NEXT(ftruncate);
    enum effect effect = taken_of("ftruncate", descriptor);

    if (effect == DONE)
        return next(descriptor, size);
    if (effect == WHOLE)
        (void)!next(descriptor, size);
    return stopped();
}

/* Gives a file another name by this call of the system. */
static int named(const char *word, int (*next)(const char *, const char *), const char *from, const char *to)
{
    enum effect effect = is_below(to) ? taken(word, to) : DONE;

    if (effect == DONE)
        return next(from, to);
    if (effect == WHOLE)
        next(from, to);
    return stopped();
}

int rename(const char *from, const char *to)
{
    NEXT(rename);
    return named("rename", next, from, to);
}

int link(const char *from, const char *to)
{
    NEXT(link);
    return named("link", next, from, to);
}

int unlink(const char *path)
{
    NEXT(unlink);
    enum effect effect = taken_at("unlink", path);

    if (effect == DONE)
        return next(path);
    if (effect == WHOLE)
        next(path);
    return stopped();
}

int connect(int socket, const struct sockaddr *address, socklen_t size)
{
    NEXT(connect);
    return taken("connect", "the link") == DONE ? next(socket, address, size) : stopped();
}

ssize_t send(int socket, const void *bytes, size_t size, int flags)
{
    NEXT(send);
    enum effect effect = taken("send", "the link");

    if (effect == DONE)
        return next(socket, bytes, size, flags);
    if (effect != NONE)
        next(socket, bytes, effect == HALF ? size / 2 : size, flags);
    return stopped();
}

ssize_t recv(int socket, void *bytes, size_t size, int flags)
{
    NEXT(recv);
    enum effect effect = taken("recv", "the link");

    if (effect == DONE)
        return next(socket, bytes, size, flags);
    if (effect == WHOLE)
        next(socket, bytes, size, flags);
    return stopped();
}

/* Refuses a program one kind of call of the system.

       cc -O1 -shared -fPIC -o refuse_call.so refuse_call.c -ldl
       REFUSED_CALL=read-timeout LD_PRELOAD=./refuse_call.so PROGRAM ..

   The kinds: `read-timeout` and `write-timeout`, a bound on the waits of a socket; `random`, random octets; `look`,
   a look at a file of a folder `new` and `record`, one at a file `seen-..`, which fail by a fault of the device, the
   first where files have no second name, so that a name is looked up; `told`, a look at a file `told-..`, for want
   of memory; `folder-flush` and `folder-flush-unsupported`, the flush of a folder, with REFUSED_FOLDER only of that
   one, and `writer-flush`, that of the file REFUSED_FILE by a handle that may write, as a write that failed is told to
   no other; `sparing-rename`, a rename that spares what is there, as on a file system that has none; `lock-none-left`
   and `lock-unsupported`, the lock of a file; `output`, every second write to standard output, as a signal interrupts
   one. With REFUSED_WHEN none is refused before the file of that path is there. */

#include "preloaded.h"
#include <sys/file.h>
#include <sys/socket.h>

static int refuses(const char *kind)
{
    const char *when = getenv("REFUSED_WHEN");

    return is_named(kind, "REFUSED_CALL") && (!when || access(when, F_OK) == 0);
}

static int is_in_new(const char *path)
{
    const char *folder = strstr(path, "/new/");

    return folder && folder[5];
}

int setsockopt(int socket, int level, int name, const void *value, socklen_t size)
{
    NEXT(setsockopt);

    if (level == SOL_SOCKET && ((name == SO_RCVTIMEO && refuses("read-timeout"))
                                || (name == SO_SNDTIMEO && refuses("write-timeout"))))
        return refused(ENOPROTOOPT);
    return next(socket, level, name, value, size);
}

ssize_t write(int descriptor, const void *bytes, size_t size)
{
    NEXT(write);
    static int asked = 0;

    if (descriptor == STDOUT_FILENO && refuses("output") && asked++ % 2 == 0)
        return refused(EINTR);
    return next(descriptor, bytes, size);
}

int flock(int file, int how)
{
    NEXT(flock);

    if (refuses("lock-none-left") || refuses("lock-unsupported"))
        return refused(refuses("lock-none-left") ? ENOLCK : EOPNOTSUPP);
    return next(file, how);
}

int getentropy(void *buffer, size_t length)
{
    NEXT(getentropy);

    return refuses("random") ? refused(ENOSYS) : next(buffer, length);
}

int fsync(int descriptor)
{
    NEXT(fsync);
    struct stat found;
    char path[PATH_MAX];

    if ((refuses("folder-flush") || refuses("folder-flush-unsupported")) && !fstat(descriptor, &found)
        && S_ISDIR(found.st_mode)
        && (!getenv("REFUSED_FOLDER") || is_named(path_of(descriptor, path), "REFUSED_FOLDER")))
        return refused(refuses("folder-flush") ? EINVAL : EOPNOTSUPP);
    if (refuses("writer-flush") && (fcntl(descriptor, F_GETFL) & O_ACCMODE) != O_RDONLY
        && is_named(path_of(descriptor, path), "REFUSED_FILE"))
        return refused(EIO);
    return next(descriptor);
}

int renameat2(int from_folder, const char *from, int to_folder, const char *to, unsigned flags)
{
    NEXT(renameat2);

    return flags && refuses("sparing-rename") ? refused(EINVAL) : next(from_folder, from, to_folder, to, flags);
}

int link(const char *from, const char *to)
{
    NEXT(link);

    return refuses("look") ? refused(EPERM) : next(from, to);
}

int statx(int folder, const char *path, int flags, unsigned int mask, struct statx *found)
{
    NEXT(statx);

    if ((refuses("look") && is_in_new(path)) || (refuses("record") && strstr(path, "/seen-"))
        || (refuses("told") && strstr(path, "/told-")))
        return refused(refuses("told") ? ENOMEM : EIO);
    return next(folder, path, flags, mask, found);
}

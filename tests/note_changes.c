/* Writes down each change that a program makes to files and folders, with its bytes, and all that it sends; kills it
   after one of them.

       cc -O1 -shared -fPIC -o note_changes.so note_changes.c -ldl
       CHANGES_NOTE=note CHANGES_KILLED=5 LD_PRELOAD=./note_changes.so PROGRAM ..

   Each call that did something adds a row to the file `note`: words and numbers with tabs between, the last of them a
   count of bytes; then LF, and that many bytes. A file is named by the number of its inode, a folder by its path.

       make INODE PATH 0       a file that was not there was made by open
       write INODE PLACE n     n bytes were written from that place on
       length INODE SIZE 0     the file got this length
       flush INODE 0           fsync or fdatasync of a file
       flush-folder PATH 0     the same for a folder
       rename FROM TO 0        link FROM TO 0        unlink PATH 0
       send n                  n bytes were written to a socket or a pipe
       list PATH 0             the names of a folder were asked for; only with CHANGES_LISTED=1

   A path that isn't absolute is taken from the working folder. After the fifth row, here, the program is killed;
   without CHANGES_KILLED it isn't. */

#include "preloaded.h"
#include <dirent.h>
#include <signal.h>
#include <stdint.h>
#include <sys/socket.h>
#include <sys/uio.h>

static ssize_t write_rows(const struct iovec *pieces)
{
    NEXT(writev);
    return next(note, pieces, 2);
}

__attribute__((constructor)) static void begin(void)
{
    open_note("CHANGES_NOTE");
}

/* Adds a row, which has no count of bytes yet, and kills the program if it was the last one. */
static void add_row(const void *bytes, size_t size, const char *format, ...)
{
    static long rows = 0;
    char row[3 * PATH_MAX];
    int fault = errno, length;
    va_list more;

    if (note < 0)
        return;
    va_start(more, format);
    length = vsnprintf(row, sizeof row - 32, format, more);
    va_end(more);
    length += sprintf(row + length, "\t%zu\n", size);
    struct iovec pieces[2] = {{row, length}, {(void *)bytes, size}};
    if (write_rows(pieces) != (ssize_t)(length + size))
        abort();
    if (++rows == number_in("CHANGES_KILLED", -1))
        kill(getpid(), SIGKILL);
    errno = fault;
}

static const char *absolute(const char *path, char whole[2 * PATH_MAX])
{
    if (path[0] == '/')
        return path;
    if (!getcwd(whole, PATH_MAX))
        abort();
    strcat(strcat(whole, "/"), path);
    return whole;
}

/* What a file was before it is opened: -1 if there was none, else its length. */
static off_t length_before(const char *path)
{
    struct stat about;

    return stat(path, &about) == 0 ? about.st_size : -1;
}

static int opened(int descriptor, const char *path, int flags, off_t before)
{
    struct stat about;
    char whole[2 * PATH_MAX];

    if (descriptor < 0 || fstat(descriptor, &about) != 0 || !S_ISREG(about.st_mode))
        return descriptor;
    if (before < 0 && (flags & O_CREAT))
        add_row("", 0, "make\t%ju\t%s", (uintmax_t)about.st_ino, absolute(path, whole));
    else if (before > 0 && (flags & O_TRUNC))
        add_row("", 0, "length\t%ju\t0", (uintmax_t)about.st_ino);
    return descriptor;
}

int open(const char *path, int flags, ...)
{
    NEXT(open);
    off_t before = length_before(path);

    return opened(next(path, flags, MODE_BEHIND(flags)), path, flags, before);
}

/* The name by which python3 has it. */
int open64(const char *path, int flags, ...) __attribute__((alias("open")));

int openat(int folder, const char *path, int flags, ...)
{
    NEXT(openat);
    /* The programs open no file by a folder; if one is made so, its tree isn't the one that the rows give. */
    off_t before = folder == AT_FDCWD || path[0] == '/' ? length_before(path) : 0;

    return opened(next(folder, path, flags, MODE_BEHIND(flags)), path, flags, before);
}

/* Writes the row of a write, which began at `place` unless the file is only appended to. */
static void wrote(int descriptor, const void *bytes, ssize_t written, off_t place)
{
    struct stat about;

    if (written < 0 || descriptor == note || fstat(descriptor, &about) != 0)
        return;
    if (!S_ISREG(about.st_mode)) {
        add_row(bytes, written, "send");
        return;
    }
    if (fcntl(descriptor, F_GETFL) & O_APPEND)
        place = about.st_size - written;
    add_row(bytes, written, "write\t%ju\t%jd", (uintmax_t)about.st_ino, (intmax_t)place);
}

ssize_t write(int descriptor, const void *bytes, size_t size)
{
    NEXT(write);
    off_t place = lseek(descriptor, 0, SEEK_CUR);
    ssize_t written = next(descriptor, bytes, size);

    wrote(descriptor, bytes, written, place);
    return written;
}

ssize_t pwrite(int descriptor, const void *bytes, size_t size, off_t place)
{
    NEXT(pwrite);
    ssize_t written = next(descriptor, bytes, size, place);

    wrote(descriptor, bytes, written, place);
    return written;
}

ssize_t send(int socket, const void *bytes, size_t size, int flags)
{
    NEXT(send);
    ssize_t written = next(socket, bytes, size, flags);

    wrote(socket, bytes, written, 0);
    return written;
}

int ftruncate(int descriptor, off_t size)
{
    NEXT(ftruncate);
    struct stat about;
    int answer = next(descriptor, size);

    if (answer == 0 && fstat(descriptor, &about) == 0)
        add_row("", 0, "length\t%ju\t%jd", (uintmax_t)about.st_ino, (intmax_t)size);
    return answer;
}

static int flushed(int descriptor, int answer)
{
    struct stat about;
    char path[PATH_MAX];

    if (answer != 0 || fstat(descriptor, &about) != 0)
        return answer;
    if (S_ISDIR(about.st_mode))
        add_row("", 0, "flush-folder\t%s", path_of(descriptor, path));
    else
        add_row("", 0, "flush\t%ju", (uintmax_t)about.st_ino);
    return answer;
}

int fsync(int descriptor)
{
    NEXT(fsync);
    return flushed(descriptor, next(descriptor));
}

int fdatasync(int descriptor)
{
    NEXT(fdatasync);
    return flushed(descriptor, next(descriptor));
}

/* Writes the row of a call that gave a file another name. */
static int renamed(const char *word, const char *from, const char *to, int answer)
{
    char one[2 * PATH_MAX], other[2 * PATH_MAX];

    if (answer == 0)
        add_row("", 0, "%s\t%s\t%s", word, absolute(from, one), absolute(to, other));
    return answer;
}

int rename(const char *from, const char *to)
{
    NEXT(rename);
    return renamed("rename", from, to, next(from, to));
}

/* Without folders: the paths are absolute, or taken from the working folder. */
int renameat2(int from_folder, const char *from, int to_folder, const char *to, unsigned flags)
{
    NEXT(renameat2);
    return renamed("rename", from, to, next(from_folder, from, to_folder, to, flags));
}

int link(const char *from, const char *to)
{
    NEXT(link);
    return renamed("link", from, to, next(from, to));
}

int unlink(const char *path)
{
    NEXT(unlink);
    char whole[2 * PATH_MAX];
    int answer = next(path);

    if (answer == 0)
        add_row("", 0, "unlink\t%s", absolute(path, whole));
    return answer;
}

ssize_t getdents64(int folder, void *names, size_t size)
{
    NEXT(getdents64);
    char path[PATH_MAX];

    if (getenv("CHANGES_LISTED"))
        add_row("", 0, "list\t%s", path_of(folder, path));
    return next(folder, names, size);
}

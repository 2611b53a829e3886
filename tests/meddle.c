/* Meddles with the files that a program reads, as other software or an owner may at any moment.

       cc -O1 -shared -fPIC -o meddle.so meddle.c -ldl
       MEDDLE_FROM=new/a MEDDLE_TO=cur/a:2,S MEDDLE_REFUSED=new/b LD_PRELOAD=./meddle.so PROGRAM ..

   The file of MEDDLE_FROM gets the name of MEDDLE_TO, or is removed if there is none, once: just before it is opened.
   With MEDDLE_AT that is just before the file or folder of that path is opened; with MEDDLE_READ, just after octets of
   the file of that path were read; with MEDDLE_MISSED, while a folder is listed, and the entry of that name is left out
   of this listing, as the system does with a file that is renamed meanwhile.

   Each time that the folder of MEDDLE_RESTLESS is opened, the file of MEDDLE_FROM gets the name of MEDDLE_TO, or back.

   Each time that the file of MEDDLE_REFUSED is opened, that answers -1 with EACCES. Each read of the file of
   MEDDLE_BROKEN but the first answers -1 with EIO, and so does each removal of the file of MEDDLE_KEPT. With MEDDLE_WHEN
   nothing of all this happens before the file of that path is there. A file is known by the path that the program gives;
   a folder's ends with a slash. */

#include "preloaded.h"
#include <dirent.h>

static int read_file = -1;
static int broken_file = -1;

static int is_on(void)
{
    const char *when = getenv("MEDDLE_WHEN");

    return !when || access(when, F_OK) == 0;
}

static void move(void)
{
    static int moved = 0;
    const char *from = getenv("MEDDLE_FROM");
    const char *to = getenv("MEDDLE_TO");

    if (moved || !from)
        return;
    moved = 1;
    if (to ? rename(from, to) : unlink(from))
        abort();
}

static void move_to_and_fro(void)
{
    static int moved = 0;
    const char *names[] = {getenv("MEDDLE_FROM"), getenv("MEDDLE_TO")};

    if (rename(names[moved], names[!moved]))
        abort();
    moved = !moved;
}

static int meddle(const char *path)
{
    int elsewhere = getenv("MEDDLE_AT") || getenv("MEDDLE_READ") || getenv("MEDDLE_MISSED");

    if (!is_on())
        return 0;
    if (is_named(path, elsewhere ? "MEDDLE_AT" : "MEDDLE_FROM"))
        move();
    if (is_named(path, "MEDDLE_RESTLESS"))
        move_to_and_fro();
    return is_named(path, "MEDDLE_REFUSED") ? refused(EACCES) : 0;
}

static int noted(const char *path, int file)
{
    if (file >= 0 && (file == read_file || is_named(path, "MEDDLE_READ")))
        read_file = is_named(path, "MEDDLE_READ") ? file : -1;
    if (file >= 0 && (file == broken_file || is_named(path, "MEDDLE_BROKEN")))
        broken_file = is_named(path, "MEDDLE_BROKEN") ? file : -1;
    return file;
}

int open(const char *path, int flags, ...)
{
    NEXT(open);

    return meddle(path) ? -1 : noted(path, next(path, flags, MODE_BEHIND(flags)));
}

int openat(int folder, const char *path, int flags, ...)
{
    NEXT(openat);

    return meddle(path) ? -1 : noted(path, next(folder, path, flags, MODE_BEHIND(flags)));
}

int unlink(const char *path)
{
    NEXT(unlink);

    return is_named(path, "MEDDLE_KEPT") && is_on() ? refused(EIO) : next(path);
}

ssize_t read(int file, void *octets, size_t count)
{
    NEXT(read);
    ssize_t got;

    if (file == broken_file && is_on() && lseek(file, 0, SEEK_CUR) > 0)
        return refused(EIO);
    got = next(file, octets, count);
    if (file == read_file && is_on() && got > 0)
        move();
    return got;
}

ssize_t getdents64(int folder, void *entries, size_t size)
{
    NEXT(getdents64);
    static int missed = 0;
    ssize_t got = next(folder, entries, size), at;

    for (at = 0; at < got && !missed && is_on();) {
        struct dirent64 *entry = (struct dirent64 *)((char *)entries + at);
        ssize_t length = entry->d_reclen;

        if (is_named(entry->d_name, "MEDDLE_MISSED")) {
            missed = 1;
            move();
            memmove(entry, (char *)entry + length, got - at - length);
            return got - length;
        }
        at += length;
    }
    return got;
}

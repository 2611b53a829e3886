/* A mail reader at work while a program reads a folder.

       cc -O1 -shared -fPIC -o reader.so reader.c -ldl
       READER_MAILDIR=Maildir READER_CALL=3 READER_NOTE=note LD_PRELOAD=./reader.so PROGRAM ..

   Just before the third call, here, by which the program reads entries of a folder, each file of the Maildir's `new`
   is moved to `cur`, and each file of `cur` whose name ends in `:2,` gets `:2,S` there, and the other way round. With
   READER_BACK each file of `cur` is put back into `new` instead, with its flags, as mutt does. The file `note` is made
   at that moment, so that the caller can tell a run with fewer calls. With READER_CALL=0 this is done before each call.

       READER_MAILDIR=Maildir READER_OPEN=2 READER_OPENS=5 READER_NOTE=note LD_PRELOAD=./reader.so PROGRAM ..

   Just before the second open, here, of a file of `new` or `cur`, and before the four after it, that file alone is moved
   to `cur` with other flags; with READER_AWAY it is removed. With READER_SWAP it changes places with the message's file in
   `new`, if that is another one. */

#include "preloaded.h"
#include <dirent.h>

enum { MOST_FILES = 10000 };

/* The names of a folder's files, all of them read before one is changed. */
static size_t names_in(const char *folder, char **names)
{
    DIR *reading = opendir(folder);
    struct dirent *entry;
    size_t count = 0;

    if (!reading)
        abort();
    while ((entry = readdir(reading)))
        if (entry->d_name[0] != '.') {
            if (count == MOST_FILES)
                abort();
            names[count++] = strdup(entry->d_name);
        }
    closedir(reading);
    return count;
}

/* The name that the reader gives to a file: other flags for one that has some, the first for one that has none. */
static void flag(const char *name, char other[PATH_MAX])
{
    const char *flags = strstr(name, ":2,");
    int base = flags ? (int)(flags - name) : (int)strlen(name);

    snprintf(other, PATH_MAX, "%.*s:2,%s", base, name, flags && strchr(flags, 'S') ? "" : "S");
}

static void move_all(const char *maildir, const char *part, const char *target)
{
    static char *names[MOST_FILES];
    char folder[PATH_MAX], from[2 * PATH_MAX], to[2 * PATH_MAX], other[PATH_MAX];
    size_t count, place;

    snprintf(folder, sizeof folder, "%s/%s", maildir, part);
    count = names_in(folder, names);
    for (place = 0; place < count; place++) {
        if (strcmp(target, "new") == 0)
            snprintf(other, sizeof other, "%s", names[place]);
        else
            flag(names[place], other);
        snprintf(from, sizeof from, "%s/%s", folder, names[place]);
        snprintf(to, sizeof to, "%s/%s/%s", maildir, target, other);
        if (rename(from, to) != 0)
            abort();
        free(names[place]);
    }
}

static void read_mail(void)
{
    const char *maildir = getenv("READER_MAILDIR");

    make_file(getenv("READER_NOTE"), 0);
    if (getenv("READER_BACK")) {
        move_all(maildir, "cur", "new");
        return;
    }
    /* What was in `cur` first, so that no file is moved twice. */
    move_all(maildir, "cur", "cur");
    move_all(maildir, "new", "cur");
}

/* A file of `cur`, and the one of `new` whose name is the same without flags. */
static void swap(const char *maildir, const char *path)
{
    const char *name = strrchr(path, '/') + 1;
    const char *flags = strstr(name, ":2,");
    char other[2 * PATH_MAX], between[2 * PATH_MAX];

    if (!flags)
        return;
    snprintf(other, sizeof other, "%s/new/%.*s", maildir, (int)(flags - name), name);
    snprintf(between, sizeof between, "%s/cur/%.*s:2,T", maildir, (int)(flags - name), name);
    if (rename(other, between) || rename(path, other) || rename(between, path))
        abort();
}

static void before_open(const char *path)
{
    static long opens = 0;
    const char *maildir = getenv("READER_MAILDIR");
    long first = number_in("READER_OPEN", 0);
    const char *rest = path + strlen(maildir);
    char to[2 * PATH_MAX], other[PATH_MAX];

    if (first == 0 || strncmp(path, maildir, strlen(maildir)) != 0)
        return;
    if ((strncmp(rest, "/new/", 5) != 0 && strncmp(rest, "/cur/", 5) != 0) || !rest[5])
        return;
    opens++;
    if (opens < first || opens >= first + number_in("READER_OPENS", 1))
        return;
    make_file(getenv("READER_NOTE"), 0);
    if (getenv("READER_SWAP")) {
        swap(maildir, path);
        return;
    }
    flag(rest + 5, other);
    snprintf(to, sizeof to, "%s/cur/%s", maildir, other);
    if (getenv("READER_AWAY") ? unlink(path) : rename(path, to))
        abort();
}

int open(const char *path, int flags, ...)
{
    NEXT(open);

    before_open(path);
    return next(path, flags, MODE_BEHIND(flags));
}

ssize_t getdents64(int folder, void *entries, size_t size)
{
    NEXT(getdents64);
    static long calls = 0;
    long wanted = number_in("READER_CALL", -1);

    if (++calls == wanted || wanted == 0)
        read_mail();
    return next(folder, entries, size);
}

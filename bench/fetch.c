/* Fetches all messages of a POP3 server as a plain loop does: it sends what getmail sends, and for
   each message makes the same reads, writes, flushes and renames, in the store and in the record.

       fetch PORT STORE RECORD [OCTETS]

   STORE is a Maildir, or an mboxrd file if it is no folder: a text is then read whole, and before its
   entry is appended, in one write, a line with the file's size is appended to the record. Names are as
   long as getmail's. Replies are read in pieces of 4,096 octets, or of as many as the last word
   says. Only their first octet is checked. */
#include <arpa/inet.h>
#include <fcntl.h>
#include <netinet/in.h>
#include <netinet/tcp.h>
#include <stdint.h>
#include <stdio.h>
#include <stdlib.h>
#include <string.h>
#include <sys/socket.h>
#include <sys/stat.h>
#include <unistd.h>

static int server;
static char *piece;
static size_t room = 4096, start, end;

static void need(int holds)
{
    if (!holds)
        exit(1);
}

static int octet(void)
{
    if (start == end) {
        ssize_t count = read(server, piece, room);
        need(count > 0);
        start = 0;
        end = (size_t)count;
    }
    return (unsigned char)piece[start++];
}

static void take_line(char *line, size_t size)
{
    size_t length = 0;
    int next;

    while ((next = octet()) != '\n')
        if (length + 1 < size)
            line[length++] = (char)next;
    line[length] = 0;
}

static void ask(const char *command, char *line, size_t size)
{
    need(write(server, command, strlen(command)) == (ssize_t)strlen(command));
    take_line(line, size);
    need(line[0] == '+');
}

static void flush_folder(const char *path)
{
    int folder = open(path, O_RDONLY);
    need(folder >= 0 && fsync(folder) == 0 && close(folder) == 0);
}

static void append(const char *path, const char *bytes, size_t count)
{
    int file = open(path, O_WRONLY | O_CREAT | O_APPEND, 0600);
    need(file >= 0 && write(file, bytes, count) == (ssize_t)count && fsync(file) == 0 && close(file) == 0);
}

/* A text in memory. */
static char *text;
static size_t text_length, text_room;

static void keep(const char *bytes, size_t count)
{
    if (text_room - text_length < count) {
        text_room = 2 * text_room > text_length + count ? 2 * text_room : text_length + count;
        text = realloc(text, text_room);
        need(text != NULL);
    }
    memcpy(text + text_length, bytes, count);
    text_length += count;
}

/* Writes the text of a message to a file, each piece that came in one write, without the dots and
   the CRs of the wire; or keeps it, if there is no file. */
static void take_text(int file)
{
    char *out = malloc(room + 1);
    int at_line = 1, after_cr = 0, dot = 0;

    need(out != NULL);
    for (;;) {
        size_t put = 0;
        int over = 0;

        if (start == end) {
            octet();
            start--;
        }
        while (start < end && !over) {
            char next = piece[start++];
            if (after_cr) {
                after_cr = 0;
                if (next == '\n') {
                    over = dot;
                    if (!dot)
                        out[put++] = '\n';
                    at_line = 1;
                    dot = 0;
                    continue;
                }
                out[put++] = '\r';
                at_line = dot = 0;
            }
            if (next == '\r')
                after_cr = 1;
            else if (at_line && next == '.')
                dot = 1;
            else {
                out[put++] = next;
                dot = 0;
            }
            at_line = 0;
        }
        if (file < 0)
            keep(out, put);
        else
            need(put == 0 || write(file, out, put) == (ssize_t)put);
        if (over)
            break;
    }
    free(out);
}

static void deliver(const char *maildir, int number, const char *record)
{
    char from[4096], to[4096], folder[4096], line[4096], command[32];
    struct stat about;
    int file;

    snprintf(from, sizeof from, "%s/tmp/%064d.%012d", maildir, 0, number);
    snprintf(to, sizeof to, "%s/new/%064d.%012d", maildir, 0, number);
    snprintf(folder, sizeof folder, "%s/new", maildir);
    snprintf(command, sizeof command, "RETR %d\r\n", number);
    ask(command, line, sizeof line);
    unlink(from);
    file = open(from, O_WRONLY | O_CREAT | O_EXCL, 0600);
    need(file >= 0);
    take_text(file);
    need(fsync(file) == 0 && lstat(to, &about) != 0 && rename(from, to) == 0);
    flush_folder(folder);
    need(close(file) == 0);
    append(record, line, (size_t)snprintf(line, sizeof line, "+ 1\n%06d 1700000000 1\n", number));
}

static off_t size_of(const char *path)
{
    struct stat about;
    char ends[5];
    int file = open(path, O_RDONLY);

    need(file >= 0 && fstat(file, &about) == 0);
    if (about.st_size > 0) {
        need(read(file, ends, 5) == 5 && lseek(file, about.st_size - 2, SEEK_SET) >= 0);
        need(read(file, ends, 2) == 2);
    }
    need(close(file) == 0);
    return about.st_size;
}

/* Whether a line is any number of `>` and then `From `. */
static int is_quoted(const char *line, const char *end)
{
    while (line < end && *line == '>')
        line++;
    return end - line >= 5 && !memcmp(line, "From ", 5);
}

/* The entry of the text, and its length. */
static char *entry_of_text(size_t *length)
{
    static const char first[] = "From MAILER-DAEMON Thu Jan  1 00:00:00 1970\n";
    const char *line, *after, *end = text + text_length;
    size_t quoted = 0;
    char *entry, *put;

    for (line = text; line < end; line = (const char *)memchr(line, '\n', (size_t)(end - line)) + 1)
        quoted += (size_t)is_quoted(line, end);
    *length = sizeof first - 1 + text_length + quoted + 1;
    put = entry = malloc(*length);
    need(entry != NULL);
    memcpy(put, first, sizeof first - 1);
    put += sizeof first - 1;
    for (line = text; line < end; line = after) {
        after = (const char *)memchr(line, '\n', (size_t)(end - line)) + 1;
        if (is_quoted(line, end))
            *put++ = '>';
        memcpy(put, line, (size_t)(after - line));
        put += after - line;
    }
    *put = '\n';
    return entry;
}

static void append_entry(const char *mbox, int number, const char *record)
{
    char line[4096], command[32];
    size_t length;
    char *entry;

    snprintf(command, sizeof command, "RETR %d\r\n", number);
    ask(command, line, sizeof line);
    text_length = 0;
    take_text(-1);
    entry = entry_of_text(&length);
    append(record, line, (size_t)snprintf(line, sizeof line, "! %06d %jd %zu\n", number, (intmax_t)size_of(mbox), length));
    size_of(mbox);
    append(mbox, entry, length);
    append(record, line, (size_t)snprintf(line, sizeof line, "+ 1\n%06d 1700000000 1\n", number));
    free(entry);
    free(text);
    text = NULL;
    text_room = 0;
}

static int is_folder(const char *path)
{
    struct stat about;

    need(stat(path, &about) == 0);
    return S_ISDIR(about.st_mode);
}

static void listing(const char *command, int count)
{
    char line[4096];

    ask(command, line, sizeof line);
    while (count-- >= 0)
        take_line(line, sizeof line);
}

int main(int argc, char **argv)
{
    struct sockaddr_in address = {.sin_family = AF_INET, .sin_addr.s_addr = htonl(INADDR_LOOPBACK)};
    char line[4096];
    int on = 1, count, number;

    need(argc > 3);
    if (argc > 4)
        room = (size_t)atol(argv[4]);
    piece = malloc(room);
    need(piece != NULL);
    address.sin_port = htons((unsigned short)atoi(argv[1]));
    server = socket(AF_INET, SOCK_STREAM, 0);
    need(server >= 0 && connect(server, (struct sockaddr *)&address, sizeof address) == 0);
    need(setsockopt(server, IPPROTO_TCP, TCP_NODELAY, &on, sizeof on) == 0);
    take_line(line, sizeof line);
    ask("USER u\r\n", line, sizeof line);
    ask("PASS sesame\r\n", line, sizeof line);
    ask("STAT\r\n", line, sizeof line);
    count = atoi(line + 4);
    listing("UIDL\r\n", count);
    listing("LIST\r\n", count);
    append(argv[3], "plain\n", 6);
    for (number = 1; number <= count; number++)
        (is_folder(argv[2]) ? deliver : append_entry)(argv[2], number, argv[3]);
    ask("QUIT\r\n", line, sizeof line);
    return 0;
}

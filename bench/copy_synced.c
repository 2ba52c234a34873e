/* Copies files as gir_file files sheets: for each line of standard input, IN, a tab and OUT, it
 * makes the calls of the system that gir_file makes, in their order, and writes what it read. It
 * proves nothing and decides nothing: where a call fails it stops. What gir_file takes beyond
 * this is the price of making and comparing the sheet. */
#include <fcntl.h>
#include <stdbool.h>
#include <stdio.h>
#include <string.h>
#include <unistd.h>

enum { PAYLOAD = 4079, READ_BACK = 8162, MORE = 4096, ALWAYS = O_CLOEXEC | O_NOCTTY };

static char input[1 << 16], octets[READ_BACK], back[READ_BACK];

/* Reads to a buffer's end or to the file's; the octets, or -1. */
static ssize_t fill(int file, char *to, size_t room)
{
    size_t at = 0;
    while (at < room) {
        ssize_t got = read(file, to + at, room - at);
        if (got < 0)
            return -1;
        if (got == 0)
            break;
        at += (size_t)got;
    }
    return (ssize_t)at;
}

/* The octets of IN, and then to its end. */
static ssize_t take(const char *in)
{
    char more[MORE];
    int file = open(in, O_RDONLY | ALWAYS);
    if (file < 0)
        return -1;
    ssize_t length = fill(file, octets, PAYLOAD);
    while (read(file, more, sizeof more) > 0)
        ;
    return close(file) < 0 ? -1 : length;
}

static bool stands(const char *name)
{
    char one[1];
    return readlink(name, one, 1) >= 0;
}

static bool write_synced(const char *name, size_t length)
{
    int file = open(name, O_WRONLY | O_CREAT | O_EXCL | ALWAYS, 0666);
    return file >= 0 && write(file, octets, length) == (ssize_t)length && fsync(file) == 0 &&
           close(file) == 0;
}

static bool same(const char *name, size_t length)
{
    int file = open(name, O_RDONLY | ALWAYS);
    if (file < 0)
        return false;
    ssize_t got = fill(file, back, sizeof back);
    close(file);
    return got == (ssize_t)length && memcmp(octets, back, length) == 0;
}

static bool sync_folder(const char *name)
{
    int folder = open(name, O_RDONLY | ALWAYS);
    bool well = folder >= 0 && fsync(folder) == 0;
    close(folder);
    return well;
}

static bool copy(const char *in, const char *out)
{
    char folder[4096] = ".", temporary[8192], line[64];
    const char *slash = strrchr(out, '/'), *last = slash ? slash + 1 : out;
    if (slash)
        snprintf(folder, sizeof folder, "%.*s", (int)(last - out), out);
    snprintf(temporary, sizeof temporary, "%.*s.gir-%s.tmp", (int)(last - out), out, last);
    ssize_t length = take(in);
    if (length < 0 || stands(out) || !write_synced(temporary, (size_t)length) ||
        !same(temporary, (size_t)length) || !sync_folder(folder) || stands(out) ||
        rename(temporary, out) < 0 || !sync_folder(folder))
        return false;
    int count = snprintf(line, sizeof line, "filed %zd\n", length);
    return write(STDOUT_FILENO, line, (size_t)count) == count;
}

int main(void)
{
    size_t have = 0;
    ssize_t got;
    while ((got = read(STDIN_FILENO, input + have, sizeof input - have)) > 0) {
        char *from = input, *end;
        have += (size_t)got;
        while ((end = memchr(from, '\n', (size_t)(input + have - from)))) {
            char *tab = memchr(from, '\t', (size_t)(end - from));
            *end = 0;
            if (!tab)
                return 1;
            *tab = 0;
            if (!copy(from, tab + 1))
                return 1;
            from = end + 1;
        }
        have -= (size_t)(from - input);
        memmove(input, from, have);
    }
    return got < 0 || have > 0;
}

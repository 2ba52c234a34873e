/* What the kit's library os takes from C, for a program that bench/native compiles for a machine
 * that is not x86-64: the kit has it for x86-64 only. The calls are made with the flags that the
 * kit's own code makes them with. */
#include <errno.h>
#include <fcntl.h>
#include <stddef.h>
#include <stdint.h>
#include <string.h>

enum { ALWAYS = O_CLOEXEC | O_NOCTTY };

int rattle_open_to_read(const char *path)
{
    return open(path, O_RDONLY | ALWAYS);
}

int rattle_open_new(const char *path, unsigned mode)
{
    return open(path, O_WRONLY | O_CREAT | O_EXCL | ALWAYS, mode);
}

int rattle_open_to_overwrite(const char *path, unsigned mode)
{
    return open(path, O_WRONLY | O_CREAT | O_TRUNC | ALWAYS, mode);
}

int rattle_open_to_append(const char *path)
{
    return open(path, O_WRONLY | O_APPEND | ALWAYS);
}

int rattle_open_to_update(const char *path)
{
    return open(path, O_RDWR | ALWAYS);
}

int rattle_errno(void)
{
    return errno;
}

void rattle_set_errno(int error)
{
    errno = error;
}

/* The arguments: the C library hands them to what runs before main. */
static size_t count;
static char **words;

__attribute__((constructor)) static void keep(int argc, char **argv)
{
    count = (size_t)argc;
    words = argv;
}

size_t rattle_arg_count(void)
{
    return count;
}

ptrdiff_t rattle_arg(size_t i, uint8_t *to, size_t room)
{
    if (i >= count || !words[i])
        return -1;
    size_t length = strlen(words[i]);
    memcpy(to, words[i], length < room ? length : room);
    return length <= room ? (ptrdiff_t)length : -2;
}

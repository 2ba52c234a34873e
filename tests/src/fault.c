/* Stands between a program and the C library, for tests/faults and tests/filing: the calls that reach files are counted, and
 * at the one whose number the variable GIR_AT gives something happens, by GIR_HOW:
 *   fail     this call fails with EIO
 *   nospace  this call fails with ENOSPC
 *   part     this call, if it reads or writes, takes half of the octets only
 *   full     from this call on every write to descriptor 1 fails with ENOSPC
 *   dead     this call and every later one fail with EIO
 *   before   the process is killed before this call
 *   behind   the process is killed right behind it
 * Calls on descriptors 0, 1 and 2 are passed by and not counted, unless GIR_ALL is set. The file that GIR_SEEN names gets a
 * line with the call at which it happened, and its descriptor if it has one; no line: the number is beyond the last call.
 *
 * For x86-64, without any header, so that every compiler for it will do: desk.sh builds it by the kit's, on any machine. It
 * asks the kernel itself and needs of the C library what is declared here. */

extern long syscall(long number, ...);
extern char *getenv(const char *name);
extern int *__errno_location(void);

enum { SYS_READ = 0, SYS_WRITE = 1, SYS_CLOSE = 3, SYS_GETPID = 39, SYS_KILL = 62, SYS_FSYNC = 74 };
enum { SYS_OPENAT = 257, SYS_UNLINKAT = 263, SYS_RENAMEAT = 264, SYS_READLINKAT = 267 };
enum { AT_FDCWD = -100, WRITE_CREATE_APPEND = 1 | 0100 | 02000, SIGKILL = 9, EIO = 5, ENOSPC = 28, NONE = -1 };

static long calls;

static int same(const char *a, const char *b)
{
    while (*a != 0 && *a == *b) {
        a++;
        b++;
    }
    return *a == *b;
}

static int is(const char *word)
{
    const char *how = getenv("GIR_HOW");
    return how != 0 && same(how, word);
}

/* the number of the call at which something happens; 0 is none */
static long wanted(void)
{
    const char *at = getenv("GIR_AT");
    long number = 0;
    while (at != 0 && *at >= '0' && *at <= '9')
        number = 10 * number + (*at++ - '0');
    return number;
}

static void die(void)
{
    syscall(SYS_KILL, syscall(SYS_GETPID), (long)SIGKILL);
}

/* names the call in the file of GIR_SEEN, as `write 1` */
static void note(const char *call, int fd)
{
    const char *path = getenv("GIR_SEEN");
    char line[32];
    long n = 0, file;
    if (path == 0)
        return;
    while (*call != 0)
        line[n++] = *call++;
    if (fd >= 0) {
        line[n++] = ' ';
        if (fd > 9)
            line[n++] = '0' + fd / 10 % 10;
        line[n++] = '0' + fd % 10;
    }
    line[n++] = '\n';
    file = syscall(SYS_OPENAT, (long)AT_FDCWD, path, (long)WRITE_CREATE_APPEND, 0666L);
    syscall(SYS_WRITE, file, line, n);
    syscall(SYS_CLOSE, file);
}

/* whether this call is passed by */
static int passed(int fd)
{
    return fd >= 0 && fd <= 2 && getenv("GIR_ALL") == 0;
}

/* counts a call; what it fails with, or 0. Kills the process where it is to end before it. */
static int fails(const char *call, int fd)
{
    long number = wanted();
    calls++;
    if (number == 0 || calls < number)
        return 0;
    if (calls == number) {
        note(call, fd);
        if (is("before"))
            die();
        if (is("fail"))
            return EIO;
        if (is("nospace"))
            return ENOSPC;
    }
    if (is("full") && fd == 1 && same(call, "write"))
        return ENOSPC;
    return is("dead") ? EIO : 0;
}

/* so many octets of n are asked for at this call */
static unsigned long taken(unsigned long n)
{
    return n > 1 && calls == wanted() && is("part") ? n / 2 : n;
}

static long told(long answer)
{
    if (calls == wanted() && is("behind"))
        die();
    return answer;
}

#define ASK(name, fd, call)                  \
    do {                                     \
        int error;                           \
        if (passed(fd))                      \
            return call;                     \
        error = fails(name, fd);             \
        if (error != 0) {                    \
            *__errno_location() = error;     \
            return -1;                       \
        }                                    \
        return told(call);                   \
    } while (0)

int open(const char *path, int flags, int mode)
{
    ASK("open", NONE, syscall(SYS_OPENAT, (long)AT_FDCWD, path, (long)flags, (long)mode));
}

long read(int fd, void *buf, unsigned long n)
{
    ASK("read", fd, syscall(SYS_READ, (long)fd, buf, taken(n)));
}

long write(int fd, const void *buf, unsigned long n)
{
    ASK("write", fd, syscall(SYS_WRITE, (long)fd, buf, taken(n)));
}

int fsync(int fd)
{
    ASK("fsync", fd, syscall(SYS_FSYNC, (long)fd));
}

int close(int fd)
{
    ASK("close", fd, syscall(SYS_CLOSE, (long)fd));
}

int rename(const char *from, const char *to)
{
    ASK("rename", NONE, syscall(SYS_RENAMEAT, (long)AT_FDCWD, from, (long)AT_FDCWD, to));
}

int unlink(const char *path)
{
    ASK("unlink", NONE, syscall(SYS_UNLINKAT, (long)AT_FDCWD, path, 0L));
}

long readlink(const char *path, char *buf, unsigned long n)
{
    ASK("readlink", NONE, syscall(SYS_READLINKAT, (long)AT_FDCWD, path, buf, n));
}

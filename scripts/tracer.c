/* Loaded before the C library: notes each call that opens, writes (at a place, too), cuts, syncs, renames, removes or locks a file below the folder
   TRACE_UNDER, or makes a folder there, as a line of the file whose number is in TRACE_TO: what was done, and the path. The call whose
   number, counted from 1, is in TRACE_AT, which may have several with a comma between, fails with the error of the number TRACE_ERROR;
   without one the process is killed before the call. A line is noted, too, for each socket that is listened on, each wait for
   connections, each send and each try to accept one; if ACCEPT_ERROR is given, such a try fails with it.

   No header is read, so that a compiler without the C library's will do. The numbers are those of Linux on x86-64. */
typedef unsigned long size;

extern char *getenv(const char *);
extern int atoi(const char *);
extern long syscall(long, ...);
extern int *__errno_location(void);

enum {
    WRITE = 1, OPEN = 2, PWRITE = 18, GETPID = 39, SENDTO = 44, LISTEN = 50, KILL = 62, FLOCK = 73, FSYNC = 74, FDATASYNC = 75, FTRUNCATE = 77, RENAME = 82,
    MKDIR = 83, UNLINK = 87, READLINK = 89, EPOLL_WAIT = 232, OPENAT = 257, UNLINKAT = 263, ACCEPT4 = 288
};

enum { TO_CREATE = 0100, TO_WRITE = 3, HERE = -100, BY_FORCE = 9, LONGEST = 4096 };

static int noted = 0;

static size length(const char *text)
{
    size n = 0;
    while (text[n])
        n++;
    return n;
}

static int is_under(const char *path)
{
    const char *folder = getenv("TRACE_UNDER");
    if (!folder || !getenv("TRACE_TO"))
        return 0;
    while (*folder && *folder == *path)
        folder++, path++;
    return !*folder;
}

static void note(const char *what, const char *path)
{
    char line[LONGEST + 64];
    size at = 0;
    for (size i = 0; what[i]; i++)
        line[at++] = what[i];
    for (size i = 0; path && path[i] && i < LONGEST; i++) {
        if (i == 0)
            line[at++] = ' ';
        line[at++] = path[i];
    }
    line[at++] = '\n';
    syscall(WRITE, (long)atoi(getenv("TRACE_TO")), line, at);
}

/* Whether a number is one of some with a comma between. */
static int is_listed(const char *numbers, int number)
{
    while (numbers && *numbers) {
        if (atoi(numbers) == number)
            return 1;
        while (*numbers && *numbers++ != ',')
            ;
    }
    return 0;
}

/* Notes a call, and says whether it is to fail. */
static int fails(const char *what, const char *path)
{
    const char *at = getenv("TRACE_AT"), *error = getenv("TRACE_ERROR");
    noted++;
    if (is_listed(at, noted)) {
        if (!error)
            syscall(KILL, syscall(GETPID), (long)BY_FORCE);
        *__errno_location() = atoi(error);
        note("failed", what);
        return 1;
    }
    note(what, path);
    return 0;
}

/* The path of an open file, or nothing if it is not below the folder. */
static const char *path_of(int file, char *path)
{
    char name[32] = "/proc/self/fd/";
    size at = length(name), digits = 1;
    for (int rest = file; rest >= 10; rest /= 10)
        digits++;
    for (size i = 0; i < digits; i++, file /= 10)
        name[at + digits - 1 - i] = (char)('0' + file % 10);
    long n = syscall(READLINK, name, path, (long)LONGEST - 1);
    if (n < 0)
        return 0;
    path[n] = 0;
    return is_under(path) ? path : 0;
}

static int fails_at(const char *what, int file)
{
    char path[LONGEST];
    const char *found = path_of(file, path);
    return found && fails(what, found);
}

static const char *opening(int flags) { return flags & TO_CREATE ? "make" : flags & TO_WRITE ? "open-to-write" : "open"; }

int open(const char *path, int flags, ...)
{
    __builtin_va_list rest;
    __builtin_va_start(rest, flags);
    int mode = flags & TO_CREATE ? __builtin_va_arg(rest, int) : 0;
    __builtin_va_end(rest);
    return is_under(path) && fails(opening(flags), path) ? -1 : (int)syscall(OPEN, path, (long)flags, (long)mode);
}

int open64(const char *path, int flags, ...)
{
    __builtin_va_list rest;
    __builtin_va_start(rest, flags);
    int mode = flags & TO_CREATE ? __builtin_va_arg(rest, int) : 0;
    __builtin_va_end(rest);
    return open(path, flags, mode);
}

int openat(int folder, const char *path, int flags, ...)
{
    __builtin_va_list rest;
    __builtin_va_start(rest, flags);
    int mode = flags & TO_CREATE ? __builtin_va_arg(rest, int) : 0;
    __builtin_va_end(rest);
    return is_under(path) && fails(opening(flags), path) ? -1 : (int)syscall(OPENAT, (long)folder, path, (long)flags, (long)mode);
}

long write(int file, const void *bytes, size count)
{
    return fails_at("write", file) ? -1 : syscall(WRITE, (long)file, bytes, count);
}

long pwrite(int file, const void *bytes, size count, long at)
{
    return fails_at("write-at", file) ? -1 : syscall(PWRITE, (long)file, bytes, count, at);
}

long pwrite64(int file, const void *bytes, size count, long at) { return pwrite(file, bytes, count, at); }

int ftruncate(int file, long count) { return fails_at("cut", file) ? -1 : (int)syscall(FTRUNCATE, (long)file, count); }

int fsync(int file) { return fails_at("sync", file) ? -1 : (int)syscall(FSYNC, (long)file); }

int fdatasync(int file) { return fails_at("sync", file) ? -1 : (int)syscall(FDATASYNC, (long)file); }

int flock(int file, int operation) { return fails_at("lock", file) ? -1 : (int)syscall(FLOCK, (long)file, (long)operation); }

int rename(const char *from, const char *to) { return is_under(to) && fails("rename", to) ? -1 : (int)syscall(RENAME, from, to); }

int mkdir(const char *path, unsigned mode) { return is_under(path) && fails("folder", path) ? -1 : (int)syscall(MKDIR, path, (long)mode); }

int unlink(const char *path) { return is_under(path) && fails("remove", path) ? -1 : (int)syscall(UNLINK, path); }

int unlinkat(int folder, const char *path, int flags)
{
    return is_under(path) && fails("remove", path) ? -1 : (int)syscall(UNLINKAT, (long)folder, path, (long)flags);
}

int listen(int socket, int count)
{
    if (getenv("TRACE_TO"))
        note("listen", 0);
    return (int)syscall(LISTEN, (long)socket, (long)count);
}

long sendto(int socket, const void *bytes, size count, int flags, const void *address, unsigned length)
{
    if (getenv("TRACE_TO"))
        note("send", 0);
    return syscall(SENDTO, (long)socket, bytes, count, (long)flags, address, (long)length);
}

long send(int socket, const void *bytes, size count, int flags) { return sendto(socket, bytes, count, flags, 0, 0); }

int epoll_wait(int poll, void *events, int most, int time)
{
    if (getenv("TRACE_TO"))
        note("wait", 0);
    return (int)syscall(EPOLL_WAIT, (long)poll, events, (long)most, (long)time);
}

int accept4(int socket, void *address, unsigned *count, int flags)
{
    const char *error = getenv("ACCEPT_ERROR");
    if (getenv("TRACE_TO"))
        note("accept", 0);
    if (error) {
        *__errno_location() = atoi(error);
        return -1;
    }
    return (int)syscall(ACCEPT4, (long)socket, address, count, (long)flags);
}

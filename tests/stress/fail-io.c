/*
 * Lets calls of the system fail, in a program that is run with LD_PRELOAD: the call of number FAIL_AT, from 1, and each from number
 * FAIL_FROM on, with the error FAIL_ERROR; a write with FAIL_ERROR=0 returns 0 instead. With FAIL_KILL=1 the process is killed when the
 * call would fail. With FAIL_SHORT=1 each read and write of several bytes moves one. Counted are the calls that the program makes on
 * files and directories and on its input and output, but not those of the C library itself. A close is made and then returns the error.
 * The file FAIL_PAGE, of 4,096 bytes, gets the number of calls, the number of those that failed, and for the first that failed its name
 * and its path, or `-` and the descriptor.
 */
#define _GNU_SOURCE
#include <dlfcn.h>
#include <errno.h>
#include <fcntl.h>
#include <signal.h>
#include <stdarg.h>
#include <stdint.h>
#include <stdio.h>
#include <stdlib.h>
#include <string.h>
#include <sys/mman.h>
#include <sys/stat.h>
#include <sys/uio.h>
#include <unistd.h>

static struct { uint64_t made, failed; char first[4080]; } *page;
static uint64_t at, from;
static int error, is_short, kills;
static char paths[64][2048];

static uint64_t number(const char *name)
{
    const char *word = getenv(name);
    return word ? strtoull(word, NULL, 10) : 0;
}

/* The C library's own function of a name. */
static void *own(const char *name)
{
    void *found = dlsym(RTLD_NEXT, name);
    if (!found)
        abort();
    return found;
}

__attribute__((constructor)) static void begin(void)
{
    const char *path = getenv("FAIL_PAGE");
    int (*opens)(const char *, int, ...) = own("open");
    int (*closes)(int) = own("close");
    int file = path ? opens(path, O_RDWR) : -1;
    void *found = file < 0 ? MAP_FAILED : mmap(NULL, sizeof *page, PROT_READ | PROT_WRITE, MAP_SHARED, file, 0);
    at = number("FAIL_AT");
    from = number("FAIL_FROM");
    error = number("FAIL_ERROR");
    is_short = number("FAIL_SHORT");
    kills = number("FAIL_KILL");
    if (file >= 0)
        closes(file);
    if (found == MAP_FAILED)
        abort();
    page = found;
}

static int fails(const char *name, int file, const char *path)
{
    if (!page)
        return 0;
    page->made++;
    if (page->made != at && (!from || page->made < from))
        return 0;
    if (!page->failed++) {
        if (path)
            snprintf(page->first, sizeof page->first, "%s %s", name, path);
        else
            snprintf(page->first, sizeof page->first, "%s - %d", name, file);
    }
    if (kills)
        kill(getpid(), SIGKILL);
    errno = error;
    return 1;
}

static const char *path_of(int file)
{
    return file > 2 && file < 64 && paths[file][0] ? paths[file] : NULL;
}

static int opened(int file, const char *path)
{
    if (file >= 0 && file < 64)
        snprintf(paths[file], sizeof paths[file], "%s", path);
    return file;
}

static mode_t mode_in(int flags, va_list more)
{
    return flags & (O_CREAT | O_TMPFILE) ? va_arg(more, mode_t) : 0;
}

#define OPENING(NAME)                                                                    \
    int NAME(const char *path, int flags, ...)                                           \
    {                                                                                    \
        va_list more;                                                                    \
        va_start(more, flags);                                                           \
        mode_t mode = mode_in(flags, more);                                              \
        va_end(more);                                                                    \
        int (*opens)(const char *, int, ...) = own(#NAME);                               \
        return fails("open", 0, path) ? -1 : opened(opens(path, flags, mode), path);     \
    }

#define OPENING_AT(NAME)                                                                 \
    int NAME(int folder, const char *path, int flags, ...)                               \
    {                                                                                    \
        va_list more;                                                                    \
        va_start(more, flags);                                                           \
        mode_t mode = mode_in(flags, more);                                              \
        va_end(more);                                                                    \
        int (*opens)(int, const char *, int, ...) = own(#NAME);                          \
        return fails("open", 0, path) ? -1 : opened(opens(folder, path, flags, mode), path); \
    }

/* A call that returns an int: its parameters, its arguments, and the file and path to report. */
#define CALL(NAME, PARAMETERS, ARGUMENTS, FILE, PATH)                                    \
    int NAME PARAMETERS                                                                  \
    {                                                                                    \
        int (*real) PARAMETERS = own(#NAME);                                             \
        return fails(#NAME, FILE, PATH) ? -1 : real ARGUMENTS;                           \
    }

OPENING(open)
OPENING(open64)
OPENING_AT(openat)
OPENING_AT(openat64)
CALL(statx, (int folder, const char *path, int flags, unsigned mask, struct statx *told), (folder, path, flags, mask, told), folder, *path ? path : path_of(folder))
CALL(stat, (const char *path, struct stat *told), (path, told), 0, path)
CALL(lstat, (const char *path, struct stat *told), (path, told), 0, path)
CALL(fstat, (int file, struct stat *told), (file, told), file, path_of(file))
CALL(fstatat, (int folder, const char *path, struct stat *told, int flags), (folder, path, told, flags), folder, path)
CALL(chmod, (const char *path, mode_t mode), (path, mode), 0, path)
CALL(fchmod, (int file, mode_t mode), (file, mode), file, path_of(file))
CALL(fchmodat, (int folder, const char *path, mode_t mode, int flags), (folder, path, mode, flags), folder, path)
CALL(chown, (const char *path, uid_t owner, gid_t group), (path, owner, group), 0, path)
CALL(lchown, (const char *path, uid_t owner, gid_t group), (path, owner, group), 0, path)
CALL(fchown, (int file, uid_t owner, gid_t group), (file, owner, group), file, path_of(file))
CALL(fchownat, (int folder, const char *path, uid_t owner, gid_t group, int flags), (folder, path, owner, group, flags), folder, path)
CALL(rename, (const char *old, const char *new), (old, new), 0, new)
CALL(renameat, (int one, const char *old, int other, const char *new), (one, old, other, new), other, new)
CALL(link, (const char *old, const char *new), (old, new), 0, new)
CALL(unlink, (const char *path), (path), 0, path)
CALL(unlinkat, (int folder, const char *path, int flags), (folder, path, flags), folder, path)
CALL(mkdir, (const char *path, mode_t mode), (path, mode), 0, path)
CALL(fsync, (int file), (file), file, path_of(file))
CALL(fdatasync, (int file), (file), file, path_of(file))
CALL(ftruncate, (int file, off_t size), (file, size), file, path_of(file))
CALL(flock, (int file, int how), (file, how), file, path_of(file))

/* It returns the error itself. */
int posix_fadvise(int file, off_t from_here, off_t length, int advice)
{
    int (*real)(int, off_t, off_t, int) = own("posix_fadvise");
    return fails("posix_fadvise", file, path_of(file)) ? errno : real(file, from_here, length, advice);
}

ssize_t getdents64(int file, void *into, size_t count)
{
    ssize_t (*real)(int, void *, size_t) = own("getdents64");
    return fails("getdents64", file, path_of(file)) ? -1 : real(file, into, count);
}

char *realpath(const char *path, char *into)
{
    char *(*real)(const char *, char *) = own("realpath");
    return fails("realpath", 0, path) ? NULL : real(path, into);
}

/* Only locks of a part of a file are counted. */
int fcntl(int file, int what, ...)
{
    int (*real)(int, int, ...) = own("fcntl");
    va_list more;
    va_start(more, what);
    void *argument = va_arg(more, void *);
    va_end(more);
    if ((what == F_SETLK || what == F_OFD_SETLK) && fails("fcntl", file, path_of(file)))
        return -1;
    return real(file, what, argument);
}

int close(int file)
{
    int (*closes)(int) = own("close");
    int failed = fails("close", file, path_of(file)), answer = closes(file);
    if (file >= 0 && file < 64)
        paths[file][0] = 0;
    if (!failed)
        return answer;
    errno = error;
    return -1;
}

off_t lseek(int file, off_t by, int whence)
{
    off_t (*seeks)(int, off_t, int) = own("lseek");
    return fails("lseek", file, path_of(file)) ? -1 : seeks(file, by, whence);
}

ssize_t read(int file, void *into, size_t count)
{
    ssize_t (*reads)(int, void *, size_t) = own("read");
    return fails("read", file, path_of(file)) ? -1 : reads(file, into, is_short && count ? 1 : count);
}

ssize_t pread(int file, void *into, size_t count, off_t at_byte)
{
    ssize_t (*reads)(int, void *, size_t, off_t) = own("pread");
    return fails("read", file, path_of(file)) ? -1 : reads(file, into, is_short && count ? 1 : count, at_byte);
}

ssize_t pread64(int file, void *into, size_t count, off64_t at_byte)
{
    ssize_t (*reads)(int, void *, size_t, off64_t) = own("pread64");
    return fails("read", file, path_of(file)) ? -1 : reads(file, into, is_short && count ? 1 : count, at_byte);
}

ssize_t write(int file, const void *bytes, size_t count)
{
    ssize_t (*writes)(int, const void *, size_t) = own("write");
    if (fails("write", file, path_of(file)))
        return error ? -1 : 0;
    return writes(file, bytes, is_short && count ? 1 : count);
}

ssize_t readv(int file, const struct iovec *parts, int count)
{
    ssize_t (*reads)(int, const struct iovec *, int) = own("readv");
    return fails("read", file, path_of(file)) ? -1 : reads(file, parts, count);
}

ssize_t writev(int file, const struct iovec *parts, int count)
{
    ssize_t (*writes)(int, const struct iovec *, int) = own("writev");
    return fails("write", file, path_of(file)) ? -1 : writes(file, parts, count);
}

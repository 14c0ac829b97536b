/*
 * The system calls on files that a start makes by the rules, and nothing else: is DIRECTORY/etc/pam.d a directory; and for each of the four
 * types the files of the service. The first type reads the first FIRST of them, and the other three read all: a service of auth lines alone
 * has its own file and `other`, which is read for the types of which it has no line; one that includes files has its own and those. A read
 * looks at the path (statx) and reads the file from its start: one that stayed open, or one that is opened, looked at and closed. Prints the
 * minimum microseconds of the processor for such a set of calls, of ROUNDS rounds: with files that stay open, and with files that are opened.
 *
 *   reads DIRECTORY ROUNDS FIRST FILE..
 */
#define _GNU_SOURCE
#include <fcntl.h>
#include <stdbool.h>
#include <stdio.h>
#include <stdlib.h>
#include <sys/stat.h>
#include <time.h>
#include <unistd.h>

enum { SETS = 4000, MOST = 8 };

struct file {
    char path[4096];
    int held;
};

static char bytes[4096];

static double now(void)
{
    struct timespec time;
    clock_gettime(CLOCK_PROCESS_CPUTIME_ID, &time);
    return time.tv_sec * 1e6 + time.tv_nsec / 1e3;
}

static void stop(const char *path)
{
    perror(path);
    exit(1);
}

static void look(int directory, const char *path, int flags)
{
    struct statx found;
    if (statx(directory, path, flags, STATX_BASIC_STATS | STATX_BTIME, &found) != 0)
        stop(path);
}

static int open_file(const char *path)
{
    int file = open(path, O_RDONLY | O_CLOEXEC);
    if (file < 0)
        stop(path);
    return file;
}

static void read_file(const struct file *file, bool stays_open)
{
    look(AT_FDCWD, file->path, 0);
    int opened = file->held;
    if (!stays_open) {
        opened = open_file(file->path);
        look(opened, "", AT_EMPTY_PATH);
    }
    if (pread(opened, bytes, sizeof bytes, 0) < 0)
        stop(file->path);
    if (!stays_open)
        close(opened);
}

/* The microseconds of one set of calls. */
static double took(const char *directory, const struct file *files, int first, int count, bool stay_open)
{
    double begun = now();
    for (int i = 0; i < SETS; i++) {
        look(AT_FDCWD, directory, 0);
        for (int type = 0; type < 4; type++)
            for (int at = 0; at < (type == 0 ? first : count); at++)
                read_file(&files[at], stay_open);
    }
    return (now() - begun) / SETS;
}

int main(int argc, char **argv)
{
    static struct file files[MOST];
    char directory[4096];
    double held = 1e9, opened = 1e9;
    int count = argc - 4, first = argc > 3 ? atoi(argv[3]) : 0;

    if (count < 1 || count > MOST || first > count)
        return 2;
    snprintf(directory, sizeof directory, "%s/etc/pam.d", argv[1]);
    for (int at = 0; at < count; at++) {
        snprintf(files[at].path, sizeof files[at].path, "%s/etc/pam.d/%s", argv[1], argv[at + 4]);
        files[at].held = open_file(files[at].path);
    }
    for (int rounds = atoi(argv[2]); rounds > 0; rounds--) {
        double each = took(directory, files, first, count, true);
        held = each < held ? each : held;
        each = took(directory, files, first, count, false);
        opened = each < opened ? each : opened;
    }
    printf("%.1f %.1f\n", held, opened);
    return 0;
}

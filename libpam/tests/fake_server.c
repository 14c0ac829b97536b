/*
 * fake_server MODE-FILE: a server for tests/life.c. It says yes to everything except for what the file's first word says. After
 * `says` the rest of the file is its answer to authenticate, and after `asks` it asks for a password before that answer.
 */
#define _GNU_SOURCE
#include <fcntl.h>
#include <signal.h>
#include <stdbool.h>
#include <stdio.h>
#include <stdlib.h>
#include <string.h>
#include <sys/resource.h>
#include <sys/stat.h>
#include <unistd.h>

extern char **environ;

static const char *const calls[] = { "", "start", "end", "authenticate", "setcred", "acct_mgmt", "open_session", "close_session",
    "chauthtok", "set_item", "get_item", "putenv", "getenv", "envlist", "fail_delay", "delay", "reply", "gone", "again" };
static const char *const items[] = { "", "t", "joe", "pts/1", "host\\x0aroot: fine", "", "", "", "", "", "", "", "", "" };

static bool exactly(unsigned char *into, size_t size)
{
    while (size > 0) {
        ssize_t got = read(0, into, size);
        if (got <= 0)
            return false;
        into += got;
        size -= (size_t)got;
    }
    return true;
}

static size_t read_frame(unsigned char *frame, size_t most)
{
    unsigned char length[2];
    if (!exactly(length, 2))
        exit(0);
    size_t size = (size_t)length[0] << 8 | length[1];
    if (size < 2 || size > most || !exactly(frame, size))
        exit(1);
    return size;
}

static void put(const char *text)
{
    unsigned char length[8] = { 0 };
    size_t size = strlen(text);
    for (int i = 0; i < 4; i++)
        length[4 + i] = (unsigned char)(size >> (24 - 8 * i));
    if (write(1, length, 8) != 8 || write(1, text, size) != (ssize_t)size)
        exit(1);
}

static void write_raw(const char *bytes, size_t size)
{
    if (write(1, bytes, size) != (ssize_t)size)
        exit(1);
}

/* How many descriptors are open beside 0, 1 and 2. */
static int other_descriptors(void)
{
    int found = 0;
    for (int fd = 3; fd < 64; fd++)
        found += fcntl(fd, F_GETFD) >= 0;
    return found;
}

int main(int count, char **words)
{
    unsigned char frame[600];
    char mode[2048] = "", text[2048];
    FILE *file = count == 2 ? fopen(words[1], "r") : NULL;
    if (file == NULL)
        return 1;
    mode[fread(mode, 1, sizeof mode - 1, file)] = '\0';
    fclose(file);
    char *says = strchr(mode, ' ');
    if (says != NULL)
        *says++ = '\0';
    if (strcmp(mode, "ends-at-once") == 0)
        return 0;
    for (;;) {
        size_t size = read_frame(frame, sizeof frame);
        unsigned char kind = frame[1];
        bool authenticates = kind == 3;
        if (strcmp(mode, "noise") == 0)
            for (;;)
                write_raw("\x00\x00\x00\x00\x00\x00\x00\x10noise noise noise\n\n\n", 26);
        if (strcmp(mode, "huge") == 0)
            write_raw("\x7f\xff\xff\xff\xff\xff\xff\xff", 8);
        if ((authenticates && strcmp(mode, "dies-in-call") == 0) || (kind == 2 && strcmp(mode, "dies-at-end") == 0))
            abort();
        if (authenticates && strcmp(mode, "half") == 0) {
            write_raw("\0\0\0\0\0\0\0\x19" "1 authenticate SUCC", 27);
            return 0;
        }
        if (authenticates && strcmp(mode, "stops") == 0)
            raise(SIGSTOP); /* and is killed by the test, which finds it by its file of the mode */
        if (authenticates && strcmp(mode, "dawdles") == 0)
            for (int i = 0; i < 33; i++) { /* each byte comes in time, and all of them don't */
                write_raw(&"\0\0\0\0\0\0\0\x19" "1 authenticate SUCCESS 0\n"[i], 1);
                usleep(100000);
            }
        if (authenticates && strcmp(mode, "asks") == 0) {
            put("1 say 4 Hello\n1 asks 0\n");
            put("1 say 1 Password: \n1 asks 1\n");
            size = read_frame(frame, sizeof frame);
            if (frame[1] == 17)
                put("1 authenticate CONV_ERR 19\n");
            else if (frame[1] == 18)
                put("1 authenticate INCOMPLETE 31\n");
            else
                put(size == 8 && memcmp(frame + 2, "secret", 6) == 0 ? "1 authenticate SUCCESS 0\n" : "1 authenticate AUTH_ERR 7\n");
            continue;
        }
        if (authenticates && strcmp(mode, "asks-and-dies") == 0) {
            put("1 say 1 Password: \n1 asks 1\n");
            return 0;
        }
        if (authenticates && says != NULL) {
            put(says);
            continue;
        }
        struct stat in, out;
        struct rlimit core;
        if (kind == 10)
            snprintf(text, sizeof text, "1 get_item %s%s\n", items[frame[2]][0] ? "set " : "unset", items[frame[2]]);
        else if (kind == 12) /* what a test asks about this process */
            snprintf(text, sizeof text, "1 getenv set %s,%s,%d,%d,%d,%d\n", environ[0] ? environ[0] : "", environ[1] ? environ[1] : "",
                other_descriptors(), getsid(0) != getpid() && getppid() != getsid(0),
                fstat(0, &in) == 0 && fstat(1, &out) == 0 && S_ISFIFO(in.st_mode) && S_ISSOCK(out.st_mode),
                getrlimit(RLIMIT_CORE, &core) == 0 ? (int)core.rlim_cur : -1);
        else if (kind == 13)
            snprintf(text, sizeof text, "1 env A=b\\x0ac\n1 env B=\n1 envlist 2\n");
        else
            snprintf(text, sizeof text, "1 %s SUCCESS 0\n", calls[kind % 19]);
        put(text);
        if (strcmp(mode, "dies-after") == 0)
            return 0;
    }
}

/*
 * Runs commands in turns and prints for each the minimum processor time (user and system) of its runs in microseconds, and the maximum memory
 * that it held, in KB. It is small and linked statically, so that a command's memory isn't that of whoever started it.
 *
 *   interleaved ROUNDS INPUT COMMAND ARGUMENT.. [-- INPUT COMMAND ARGUMENT..]..
 *
 * In each round each command runs once, with the file INPUT as its standard input and /dev/null as its output. A command that ends with
 * another status than 0 ends it all.
 */
#include <fcntl.h>
#include <stdio.h>
#include <stdlib.h>
#include <string.h>
#include <sys/resource.h>
#include <sys/wait.h>
#include <unistd.h>

enum { MOST = 64 };

struct command {
    char **words;
    const char *input;
    double least;
    long memory;
};

static void run(struct command *command)
{
    pid_t child = fork();
    if (child == 0) {
        int in = open(command->input, O_RDONLY), out = open("/dev/null", O_WRONLY);
        if (in < 0 || out < 0 || dup2(in, 0) < 0 || dup2(out, 1) < 0 || dup2(out, 2) < 0)
            _exit(126);
        close(in);
        close(out);
        execv(command->words[0], command->words);
        _exit(127);
    }
    int status;
    struct rusage used;
    if (child < 0 || wait4(child, &status, 0, &used) != child || status != 0) {
        fprintf(stderr, "interleaved: %s failed, with %d\n", command->words[0], child < 0 ? -1 : status);
        exit(1);
    }
    double took = (used.ru_utime.tv_sec + used.ru_stime.tv_sec) * 1e6 + used.ru_utime.tv_usec + used.ru_stime.tv_usec;
    if (command->least < 0 || took < command->least)
        command->least = took;
    if (used.ru_maxrss > command->memory)
        command->memory = used.ru_maxrss;
}

int main(int argc, char **argv)
{
    static struct command commands[MOST];
    int count = 0;

    for (int at = 2; at + 1 < argc && count < MOST; at++) {
        commands[count++] = (struct command) { argv + at + 1, argv[at], -1, 0 };
        while (at < argc && strcmp(argv[at], "--") != 0)
            at++;
        if (at < argc)
            argv[at] = NULL;
    }
    for (int rounds = argc > 1 ? atoi(argv[1]) : 0; rounds > 0; rounds--)
        for (int i = 0; i < count; i++)
            run(&commands[i]);
    for (int i = 0; i < count; i++)
        printf("%.0f %ld\n", commands[i].least, commands[i].memory);
    return 0;
}

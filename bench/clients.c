/*
 * What a login costs an application: `clients time SERVICE USER PASSWORD RUNS` prints the microseconds of pam_start,
 * pam_authenticate, pam_acct_mgmt and pam_end together, least and median; `clients memory SERVICE USER PASSWORD` prints what a
 * transaction takes that is open: of this process what it grew by, and the processes that it has.
 */
#define _GNU_SOURCE
#include <stdio.h>
#include <stdlib.h>
#include <string.h>
#include <sys/prctl.h>
#include <sys/wait.h>
#include <time.h>
#include <unistd.h>

#include <security/pam_appl.h>

static int talk(int count, const struct pam_message **messages, struct pam_response **responses, void *password)
{
    *responses = calloc((size_t)count, sizeof **responses);
    if (*responses == NULL)
        return PAM_BUF_ERR;
    for (int i = 0; i < count; i++)
        if (messages[i]->msg_style == PAM_PROMPT_ECHO_OFF)
            (*responses)[i].resp = strdup(password);
    return PAM_SUCCESS;
}

static double now(void)
{
    struct timespec time;
    clock_gettime(CLOCK_MONOTONIC, &time);
    return (double)time.tv_sec * 1e6 + (double)time.tv_nsec / 1e3;
}

static int order(const void *one, const void *other)
{
    double a = *(const double *)one, b = *(const double *)other;
    return a < b ? -1 : a > b;
}

/* A number of kB in a process's status. */
static long kilobytes(const char *process, const char *name)
{
    char path[64], line[256];
    long found = -1;
    snprintf(path, sizeof path, "/proc/%s/status", process);
    FILE *file = fopen(path, "r");
    while (file != NULL && fgets(line, sizeof line, file) != NULL)
        if (strncmp(line, name, strlen(name)) == 0)
            found = atol(line + strlen(name));
    if (file != NULL)
        fclose(file);
    return found;
}

static int login(const struct pam_conv *conv, char **words, pam_handle_t **handle)
{
    int code = pam_start(words[2], words[3], conv, handle);
    if (code == PAM_SUCCESS)
        code = pam_authenticate(*handle, 0);
    if (code == PAM_SUCCESS)
        code = pam_acct_mgmt(*handle, 0);
    return code;
}

static int measure_memory(const struct pam_conv *conv, char **words)
{
    pam_handle_t *handle = NULL;
    char children[4096] = "", path[64];
    long before = kilobytes("self", "VmRSS:");
    int code = login(conv, words, &handle);
    printf("%ld kB more in the application", kilobytes("self", "VmRSS:") - before);
    snprintf(path, sizeof path, "/proc/self/task/%d/children", getpid());
    FILE *file = fopen(path, "r");
    if (file != NULL) {
        children[fread(children, 1, sizeof children - 1, file)] = '\0';
        fclose(file);
    }
    for (char *child = strtok(children, " "); child != NULL; child = strtok(NULL, " "))
        printf(", %ld kB in a process of its own, %ld kB of them its alone", kilobytes(child, "VmRSS:"), kilobytes(child, "RssAnon:"));
    printf(" (code %d)\n", code);
    pam_end(handle, code);
    return code;
}

int main(int count, char **words)
{
    static double took[100000];
    struct pam_conv conv = { talk, count > 4 ? words[4] : NULL };
    int code = 0;

    if (count < 5)
        return 2;
    prctl(PR_SET_CHILD_SUBREAPER, 1); /* the library's processes are this one's children then */
    if (strcmp(words[1], "memory") == 0)
        return measure_memory(&conv, words);
    size_t runs = count > 5 ? strtoul(words[5], NULL, 10) : 0;
    if (runs < 1 || runs > 100000)
        return 2;
    for (size_t i = 0; i < runs; i++) {
        pam_handle_t *handle = NULL;
        double began = now();
        code = login(&conv, words, &handle);
        pam_end(handle, code);
        took[i] = now() - began;
        if (code != PAM_SUCCESS)
            return 1;
        while (waitpid(-1, NULL, WNOHANG) > 0)
            ;
    }
    qsort(took, runs, sizeof *took, order);
    printf("%.0f %.0f\n", took[0], took[runs / 2]);
    return 0;
}

/*
 * Calls the installed libpam as `pamsess run` calls its own transactions, and prints the same report, so that the two can be counted and
 * timed beside each other.
 *
 *   libpam HELD DIRECTORY SERVICE LINES STARTS PASSES
 *
 * Starts a transaction on SERVICE, a file of DIRECTORY, for the user joe STARTS times; authenticates PASSES times in each, and ends it. The
 * lines of the service are of pam_permit, which says nothing, so those that are run are printed after each pass: 1 to LINES, or those of a
 * list such as 1,3. Each step's lines are one write.
 *
 * libpam opens the modules that a service names at each start, and closes them at each end. HELD names modules by their whole paths, joined
 * by colons, that are held open here, so that they aren't loaded again each time; with "-" none is. libpam also sends the kernel's audit a
 * record of each call that names the lines that agreed, and fails if that record is longer than 8,970 bytes, as it is above 1,000 lines.
 * There is no audit here: the symbol below takes the place of that of libaudit.
 */
#include <dlfcn.h>
#include <errno.h>
#include <security/pam_appl.h>
#include <stdio.h>
#include <stdlib.h>
#include <string.h>

int audit_open(void);

/* Returns what a kernel without audit does. */
int audit_open(void)
{
    errno = EPROTONOSUPPORT;
    return -1;
}

static const char *name_of(int code)
{
    switch (code) {
    case PAM_SUCCESS: return "SUCCESS";
    case PAM_AUTH_ERR: return "AUTH_ERR";
    case PAM_PERM_DENIED: return "PERM_DENIED";
    case PAM_MODULE_UNKNOWN: return "MODULE_UNKNOWN";
    default: return "OTHER";
    }
}

/* No module here says or asks for anything. */
static int converse(int count, const struct pam_message **messages, struct pam_response **replies, void *data)
{
    (void) count, (void) messages, (void) replies, (void) data;
    return PAM_CONV_ERR;
}

static void print_lines(const char *lines)
{
    if (!strchr(lines, ',')) {
        for (int i = 1; i <= atoi(lines); i++)
            printf("1 line %d pam_permit SUCCESS 0\n", i);
        return;
    }
    for (const char *at = lines; at; at = strchr(at, ',') ? strchr(at, ',') + 1 : NULL)
        printf("1 line %d pam_permit SUCCESS 0\n", atoi(at));
}

static void report(const char *step, int code)
{
    printf("1 %s %s %d\n", step, name_of(code), code);
    fflush(stdout);
}

static void hold_open(char *modules)
{
    for (char *path = strtok(modules, ":"); path; path = strtok(NULL, ":")) {
        if (!dlopen(path, RTLD_NOW)) {
            fprintf(stderr, "libpam: %s\n", dlerror());
            exit(1);
        }
    }
}

int main(int argc, char **argv)
{
    if (argc != 7) {
        fprintf(stderr, "usage: libpam HELD DIRECTORY SERVICE LINES STARTS PASSES\n");
        return 2;
    }
    const char *directory = argv[2], *service = argv[3], *lines = argv[4];
    unsigned starts = atoi(argv[5]), passes = atoi(argv[6]);
    int code = PAM_SUCCESS;

    if (strcmp(argv[1], "-") != 0)
        hold_open(argv[1]);
    for (unsigned i = 0; i < starts; i++) {
        struct pam_conv conv = { converse, NULL };
        pam_handle_t *handle;

        code = pam_start_confdir(service, "joe", &conv, directory, &handle);
        report("start", code);
        if (code != PAM_SUCCESS)
            return 1;
        for (unsigned j = 0; j < passes; j++) {
            code = pam_authenticate(handle, 0);
            print_lines(lines);
            report("authenticate", code);
        }
        report("end", pam_end(handle, PAM_SUCCESS));
    }
    return code != PAM_SUCCESS;
}

/*
 * driver: makes the calls of a script (standard input, as `pamsess run` reads it) with the system's libpam, and prints a line for each stack call,
 * as a report has it. The clock and the calling user are those of the script: modules get them from time(), gettimeofday() and getuid(), which are
 * defined here. Only tests/scripts/differences runs it, in a root of its own.
 */
#define _GNU_SOURCE
#include <stdio.h>
#include <stdlib.h>
#include <string.h>
#include <sys/time.h>
#include <time.h>
#include <unistd.h>

/* what the driver needs of <security/pam_appl.h>, so that the library is enough and its headers needn't be there */
typedef struct pam_handle pam_handle_t;
struct pam_message {
    int msg_style;
    const char *msg;
};
struct pam_response {
    char *resp;
    int resp_retcode;
};
struct pam_conv {
    int (*conv)(int count, const struct pam_message **messages, struct pam_response **to, void *data);
    void *appdata_ptr;
};
enum { PAM_PROMPT_ECHO_OFF = 1, PAM_PROMPT_ECHO_ON = 2 };
enum { PAM_SUCCESS = 0, PAM_CONV_ERR = 19, PAM_CONV_AGAIN = 30 };
enum { PAM_USER = 2, PAM_TTY = 3, PAM_RHOST = 4, PAM_RUSER = 8, PAM_USER_PROMPT = 9, PAM_FAIL_DELAY = 10 };
int pam_start(const char *service, const char *user, const struct pam_conv *conversation, pam_handle_t **to);
int pam_end(pam_handle_t *handle, int status);
int pam_set_item(pam_handle_t *handle, int item, const void *value);
int pam_authenticate(pam_handle_t *handle, int flags);
int pam_setcred(pam_handle_t *handle, int flags);
int pam_acct_mgmt(pam_handle_t *handle, int flags);
int pam_open_session(pam_handle_t *handle, int flags);
int pam_close_session(pam_handle_t *handle, int flags);
int pam_chauthtok(pam_handle_t *handle, int flags);

static time_t now;
static uid_t caller = 65534;
static char replies[64][600];
static int given, taken;

time_t time(time_t *to) {
    if (to)
        *to = now;
    return now;
}

int gettimeofday(struct timeval *restrict to, void *restrict zone) {
    (void)zone;
    to->tv_sec = now;
    to->tv_usec = 0;
    return 0;
}

uid_t getuid(void) {
    return caller;
}

/* a reply is taken; a line `rename` before it comes first */
static const char *next_reply(void) {
    char from[300], to[300];
    while (taken < given && sscanf(replies[taken], "\\rename %299s %299s", from, to) == 2) {
        taken++;
        if (rename(from, to))
            perror(from);
    }
    return taken < given ? replies[taken++] : NULL;
}

static void no_delay(int code, unsigned micros, void *data) {
    (void)code, (void)micros, (void)data;
}

static int converse(int count, const struct pam_message **messages, struct pam_response **to, void *data) {
    (void)data;
    struct pam_response *made = calloc(count, sizeof *made);
    for (int i = 0; i < count; i++) {
        int style = messages[i]->msg_style;
        if (style != PAM_PROMPT_ECHO_OFF && style != PAM_PROMPT_ECHO_ON)
            continue;
        const char *reply = next_reply();
        if (!reply) {
            free(made);
            return PAM_CONV_ERR;
        }
        if (!strcmp(reply, "\\later")) {
            free(made);
            return PAM_CONV_AGAIN;
        }
        made[i].resp = strdup(reply);
    }
    *to = made;
    return PAM_SUCCESS;
}

static const char *const codes[] = {
    "SUCCESS", "OPEN_ERR", "SYMBOL_ERR", "SERVICE_ERR", "SYSTEM_ERR", "BUF_ERR", "PERM_DENIED", "AUTH_ERR", "CRED_INSUFFICIENT",
    "AUTHINFO_UNAVAIL", "USER_UNKNOWN", "MAXTRIES", "NEW_AUTHTOK_REQD", "ACCT_EXPIRED", "SESSION_ERR", "CRED_UNAVAIL", "CRED_EXPIRED",
    "CRED_ERR", "NO_MODULE_DATA", "CONV_ERR", "AUTHTOK_ERR", "AUTHTOK_RECOVERY_ERR", "AUTHTOK_LOCK_BUSY", "AUTHTOK_DISABLE_AGING",
    "TRY_AGAIN", "IGNORE", "ABORT", "AUTHTOK_EXPIRED", "MODULE_UNKNOWN", "BAD_ITEM", "CONV_AGAIN", "INCOMPLETE",
};

static const struct {
    const char *name;
    int (*make)(pam_handle_t *, int);
} calls[] = {
    {"authenticate", pam_authenticate}, {"setcred", pam_setcred},             {"acct_mgmt", pam_acct_mgmt},
    {"open_session", pam_open_session}, {"close_session", pam_close_session}, {"chauthtok", pam_chauthtok},
};

static const struct {
    const char *name;
    int item;
} items[] = {{"user", PAM_USER}, {"tty", PAM_TTY}, {"rhost", PAM_RHOST}, {"ruser", PAM_RUSER}, {"user_prompt", PAM_USER_PROMPT}};

int main(void) {
    char line[2000], word[64], rest[1900];
    pam_handle_t *handle = NULL;
    struct pam_conv conversation = {converse, NULL};
    while (fgets(line, sizeof line, stdin)) {
        line[strcspn(line, "\n")] = 0;
        rest[0] = 0;
        sscanf(line, "%63s", word);
        const char *after = strchr(line, ' ');
        snprintf(rest, sizeof rest, "%s", after ? after + 1 : "");
        if (!strcmp(word, "at"))
            now = atoll(rest);
        else if (!strcmp(word, "caller"))
            caller = strtoul(rest, NULL, 10);
        else if (!strcmp(word, "reply"))
            snprintf(replies[given++], sizeof replies[0], "%s", strchr(rest, ' ') + 1);
        else if (!strcmp(word, "rename"))
            snprintf(replies[given++], sizeof replies[0], "\\%s", line);
        else if (!strcmp(word, "start")) {
            char service[64] = "", user[600] = "";
            sscanf(rest, "%*s %63s %599s", service, user);
            int code = pam_start(service, *user ? user : NULL, &conversation, &handle);
            if (code != PAM_SUCCESS) {
                printf("1 start failed %s\n", codes[code]);
                return 0;
            }
            void (*delay)(int, unsigned, void *) = no_delay;
            pam_set_item(handle, PAM_FAIL_DELAY, (const void *)delay);
        } else if (!strcmp(word, "set_item")) {
            char name[64], text[600] = "";
            sscanf(rest, "%*s %63s %599[^\n]", name, text);
            for (size_t i = 0; i < sizeof items / sizeof *items; i++)
                if (!strcmp(items[i].name, name))
                    pam_set_item(handle, items[i].item, text);
        } else if (!strcmp(word, "end"))
            pam_end(handle, 0);
        for (size_t i = 0; i < sizeof calls / sizeof *calls; i++)
            if (!strcmp(word, calls[i].name)) {
                int number = 0, flags = 0;
                sscanf(rest, "%d %i", &number, &flags);
                int code = calls[i].make(handle, flags);
                printf("1 %s %s %d\n", word, codes[code], code);
                fflush(stdout);
            }
    }
    return 0;
}

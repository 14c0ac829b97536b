/* What libpam's modules write to the system's log and administrators look for, from the lines of an answer. */
#define _GNU_SOURCE
#include <pwd.h>
#include <stdarg.h>
#include <stdio.h>
#include <string.h>
#include <syslog.h>
#include <unistd.h>

#include "handle.h"

void log_say(const pam_handle_t *handle, int priority, const char *who, const char *type, const char *format, ...)
{
    char text[1024];
    va_list arguments;

    va_start(arguments, format);
    if (vsnprintf(text, sizeof text, format, arguments) < 0)
        text[0] = '\0';
    va_end(arguments);
    for (char *at = text; *at != '\0'; at++)
        if (*at < ' ' || *at > '~')
            *at = '?'; /* nobody writes a line of his own */
    syslog(LOG_AUTHPRIV | priority, "%s(%s:%s): %s", who, handle->service, type, text);
}

void log_broken(struct wire *wire, const char *why)
{
    const pam_handle_t *handle = (const void *)((const char *)wire - offsetof(pam_handle_t, wire));

    if (why != NULL && !wire->broken && handle->service[0] != '\0')
        log_say(handle, LOG_ERR, "pamsess", "process", "%s", why);
    wire->broken |= why != NULL;
}

static const char *item(pam_handle_t *handle, int number)
{
    const void *value = NULL;
    return pam_get_item(handle, number, &value) == PAM_SUCCESS && value != NULL ? value : "";
}

/* Who has logged in at the terminal; empty if that isn't known. */
static const char *login_name(char *room, size_t size)
{
    return getlogin_r(room, size) == 0 ? room : "";
}

/* The line by which fail2ban and administrators find a guessed password. A name that is no user's may be a password that was
   typed in the wrong place, so it isn't written. */
static void log_failure(pam_handle_t *handle, bool is_known)
{
    char login[64];
    const char *user = is_known ? item(handle, PAM_USER) : "";

    if (!is_known)
        log_say(handle, LOG_NOTICE, "pam_unix", "auth", "check pass; user unknown");
    const char *tty = item(handle, PAM_TTY), *ruser = item(handle, PAM_RUSER), *rhost = item(handle, PAM_RHOST);
    log_say(handle, LOG_NOTICE, "pam_unix", "auth",
        "authentication failure; logname=%s uid=%u euid=%u tty=%s ruser=%s rhost=%s %s%s", login_name(login, sizeof login),
        (unsigned)getuid(), (unsigned)geteuid(), tty, ruser, rhost, user[0] != '\0' ? " user=" : "", user);
}

static void log_opened(pam_handle_t *handle)
{
    char login[64], id[16] = "getpwnam error", room[4096];
    const char *user = item(handle, PAM_USER);
    struct passwd entry, *found = NULL;

    if (getpwnam_r(user, &entry, room, sizeof room, &found) == 0 && found != NULL)
        (void)snprintf(id, sizeof id, "%u", (unsigned)entry.pw_uid);
    log_say(handle, LOG_INFO, "pam_unix", "session", "session opened for user %s(uid=%s) by %s(uid=%u)", user, id,
        login_name(login, sizeof login), (unsigned)getuid());
}

/* How far the lines of an answer have been read. */
struct course {
    unsigned place;
    bool is_second;
};

/* What isn't an answer to the user, but a fault of the machine or of the configuration. */
static bool is_fault(unsigned code)
{
    return code == PAM_SERVICE_ERR || code == PAM_SYSTEM_ERR || code == PAM_BUF_ERR || code == PAM_AUTHINFO_UNAVAIL
        || code == PAM_ABORT || code == PAM_AUTHTOK_LOCK_BUSY;
}

/* A line of the answer; `line PLACE MODULE NAME NUMBER` is one of the stack that was run. A change of a password runs the stack
   twice; the second time it begins at a place that isn't after the last one. */
static void log_line(pam_handle_t *handle, enum kind kind, const char *line, struct course *course)
{
    static const char *const types[] = {
        [AUTHENTICATE] = "auth", [SETCRED] = "setcred", [ACCT_MGMT] = "account", [OPEN_SESSION] = "session",
        [CLOSE_SESSION] = "session", [CHAUTHTOK] = "chauthtok",
    };
    char module[64], name[32];
    unsigned place, code;

    if (sscanf(line, "line %9u %63s %31s %9u", &place, module, name, &code) != 4)
        return;
    bool is_unix = strcmp(module, "pam_unix") == 0;
    course->is_second |= place <= course->place;
    course->place = place;
    if (kind == AUTHENTICATE && is_unix && (code == PAM_AUTH_ERR || code == PAM_USER_UNKNOWN))
        log_failure(handle, code == PAM_AUTH_ERR);
    else if (kind == OPEN_SESSION && is_unix && code == PAM_SUCCESS)
        log_opened(handle);
    else if (kind == CLOSE_SESSION && is_unix && code == PAM_SUCCESS)
        log_say(handle, LOG_INFO, module, types[kind], "session closed for user %s", item(handle, PAM_USER));
    else if (kind == CHAUTHTOK && is_unix && code == PAM_SUCCESS && course->is_second)
        log_say(handle, LOG_NOTICE, module, types[kind], "password changed for %s", item(handle, PAM_USER));
    else if (is_fault(code))
        log_say(handle, LOG_ERR, "pamsess", types[kind], "line %u, module %s: %s", place, module, name);
}

void log_call(pam_handle_t *handle, enum kind kind, const struct answer *answer)
{
    const char *line = NULL;
    struct course course = { .place = 0 };

    while ((line = next_line(answer, line)) != NULL)
        log_line(handle, kind, line, &course);
}

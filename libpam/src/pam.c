/* The calls of libpam that applications make. Those of modules refuse: no module is loaded into this process. */
#define _GNU_SOURCE
#include <ctype.h>
#include <stdlib.h>
#include <string.h>
#include <syslog.h>
#include <unistd.h>

#include "handle.h"

#include <security/pam_modules.h> /* pam_get_user, pam_get_data and pam_set_data, which applications call too */

enum { LONGEST_WAIT = 60000000 }; /* microseconds, as the process has it */

static bool is_service(const char *name)
{
    size_t size = name != NULL ? strlen(name) : 0;
    for (size_t i = 0; i < size; i++)
        if (!isascii((unsigned char)name[i]) || (!isalnum((unsigned char)name[i]) && strchr("-_.", name[i]) == NULL))
            return false;
    return size >= 1 && size <= MAX_SERVICE && strcmp(name, ".") != 0 && strcmp(name, "..") != 0;
}

/* One byte that says whether there is a text, and the text. Returns how many bytes that is; 0 if the text is too long. */
static size_t put_value(unsigned char *at, const char *text)
{
    size_t size = text != NULL ? strlen(text) : 0;
    if (size > MAX_TEXT)
        return 0;
    at[0] = text != NULL;
    if (size > 0)
        memcpy(at + 1, text, size);
    return size + 1;
}

/* The fault of a refused configuration, and modules that don't exist, are logged. */
static int read_start(const pam_handle_t *handle, const struct answer *answer)
{
    const char *line = NULL, *result = result_of(answer, START), *text;

    while ((line = next_line(answer, line)) != NULL)
        if ((text = after(line, "note ")) != NULL)
            log_say(handle, LOG_WARNING, "pamsess", "start", "%s", text);
    if ((text = after(result, "refused ")) != NULL)
        log_say(handle, LOG_CRIT, "pamsess", "start", "the configuration is refused: %s", text);
    return code_of(result) == PAM_SUCCESS ? PAM_SUCCESS : PAM_ABORT;
}

static int start(pam_handle_t *handle, const char *user)
{
    unsigned char rest[1 + MAX_SERVICE + 1 + MAX_TEXT];
    struct answer answer;
    size_t size = strlen(handle->service), value;
    const char *lacks;
    int code = PAM_ABORT;

    rest[0] = (unsigned char)size;
    memcpy(rest + 1, handle->service, size);
    if ((value = put_value(rest + 1 + size, user)) == 0)
        return PAM_BUF_ERR;
    if (!server_start(&handle->wire, rest, 1 + size + value, &lacks)) {
        if (lacks != NULL)
            log_say(handle, LOG_ERR, "pamsess", "start", "no process is started, since %s is too low and can't be raised", lacks);
        else
            log_say(handle, LOG_CRIT, "pamsess", "start", "no process could be started: %m");
        return PAM_ABORT;
    }
    if (wire_receive(&handle->wire, START, &answer))
        code = read_start(handle, &answer);
    answer_free(&answer);
    if (code != PAM_SUCCESS)
        wire_close(&handle->wire);
    return code;
}

int pam_start(const char *service, const char *user, const struct pam_conv *conv, pam_handle_t **handle)
{
    if (handle == NULL || conv == NULL || !is_service(service))
        return PAM_SYSTEM_ERR;
    pam_handle_t *made = calloc(1, sizeof *made);
    *handle = NULL;
    if (made == NULL)
        return PAM_BUF_ERR;
    made->starter = getpid();
    made->conv = *conv;
    memcpy(made->service, service, strlen(service));
    int code = start(made, user);
    if (code == PAM_SUCCESS) {
        made->items[PAM_SERVICE] = strdup(service);
        made->items[PAM_USER] = user != NULL ? strdup(user) : NULL;
        *handle = made;
    } else {
        free(made);
    }
    return code;
}

int pam_start_confdir(const char *service, const char *user, const struct pam_conv *conv, const char *confdir,
    pam_handle_t **handle)
{
    return confdir == NULL ? pam_start(service, user, conv, handle) : PAM_SYSTEM_ERR;
}

/* A copy of the process that started the transaction may make its calls, but never ends it: it only closes its socket. */
int pam_end(pam_handle_t *handle, int status)
{
    unsigned char rest[4];
    int code = PAM_SUCCESS;

    if (handle == NULL || handle->in_call)
        return PAM_SYSTEM_ERR;
    put_number(rest, (uint32_t)status);
    if (handle->starter == getpid())
        code = wire_code(&handle->wire, END, rest, sizeof rest);
    wire_close(&handle->wire);
    for (int item = 0; item <= PAM_AUTHTOK_TYPE; item++)
        free(handle->items[item]);
    forget_later(handle);
    while (handle->variables != NULL) {
        struct value *first = handle->variables;
        handle->variables = first->next;
        free(first->name);
        wipe_free(first->text);
        free(first);
    }
    free(handle);
    return code;
}

#define STACK_CALL(name, kind)                                                    \
    int name(pam_handle_t *handle, int flags)                                     \
    {                                                                             \
        return handle != NULL ? stack_call(handle, kind, flags) : PAM_SYSTEM_ERR; \
    }

STACK_CALL(pam_authenticate, AUTHENTICATE)
STACK_CALL(pam_setcred, SETCRED)
STACK_CALL(pam_acct_mgmt, ACCT_MGMT)
STACK_CALL(pam_open_session, OPEN_SESSION)
STACK_CALL(pam_close_session, CLOSE_SESSION)
STACK_CALL(pam_chauthtok, CHAUTHTOK)

/* XAUTHDATA isn't a text; the conversation and the delay function never leave this process. */
static bool is_text_item(int item)
{
    return item >= PAM_SERVICE && item <= PAM_AUTHTOK_TYPE && item != PAM_XAUTHDATA && item != PAM_CONV
        && item != PAM_FAIL_DELAY;
}

/* What is typed isn't kept. */
static bool is_token(int item)
{
    return item == PAM_AUTHTOK || item == PAM_OLDAUTHTOK;
}

static int set_delay(pam_handle_t *handle, delay_fn *delay)
{
    unsigned char on = delay != NULL;
    int code = call_or_later(handle, DELAY, &on, 1);
    if (code == PAM_SUCCESS)
        handle->delay = delay;
    return code;
}

int pam_set_item(pam_handle_t *handle, int item, const void *value)
{
    unsigned char rest[2 + MAX_TEXT];

    if (handle == NULL)
        return PAM_SYSTEM_ERR;
    if (item == PAM_FAIL_DELAY) {
        delay_fn *delay;
        memcpy(&delay, &value, sizeof delay);
        return set_delay(handle, delay);
    }
    if (item == PAM_CONV) {
        if (value == NULL)
            return PAM_PERM_DENIED;
        handle->conv = *(const struct pam_conv *)value;
        return PAM_SUCCESS;
    }
    if (!is_text_item(item) || (handle->in_call && item == PAM_SERVICE))
        return PAM_BAD_ITEM;
    rest[0] = (unsigned char)item;
    size_t size = put_value(rest + 1, value);
    int code = size == 0 ? PAM_BUF_ERR : call_or_later(handle, SET_ITEM, rest, 1 + size);
    explicit_bzero(rest, sizeof rest);
    if (code == PAM_SUCCESS && !is_token(item))
        keep_text(&handle->items[item], value != NULL ? strdup(value) : NULL);
    return code;
}

/* Asks for a text. A value that was returned before stays where it is, unless it has changed. */
static int get_text(const pam_handle_t *handle, enum kind kind, const void *rest, size_t size, char **kept)
{
    struct wire *wire = (struct wire *)&handle->wire; /* the handle that libpam's prototypes call const never is */
    struct answer answer;
    char *text = NULL;
    int code = -1;

    if (wire_call(wire, kind, rest, size, &answer)) {
        const char *result = result_of(&answer, kind), *quoted = after(result, "set ");
        if (quoted != NULL)
            code = (text = unquoted(quoted)) != NULL ? PAM_SUCCESS : -1;
        else
            code = strcmp(result, "unset") == 0 ? PAM_SUCCESS : code_of(result);
    }
    answer_free(&answer);
    log_broken(wire, code < 0 ? ODD_ANSWER : NULL);
    if (code == PAM_SUCCESS)
        keep_text(kept, text);
    return code < 0 ? PAM_ABORT : code;
}

int pam_get_item(const pam_handle_t *handle, int item, const void **value)
{
    unsigned char rest = (unsigned char)item;

    if (handle == NULL)
        return PAM_SYSTEM_ERR;
    if (value == NULL)
        return PAM_PERM_DENIED;
    *value = NULL;
    if (item == PAM_CONV) {
        *value = &handle->conv;
        return PAM_SUCCESS;
    }
    if (item == PAM_FAIL_DELAY) {
        memcpy(value, &handle->delay, sizeof handle->delay);
        return PAM_SUCCESS;
    }
    if (!is_text_item(item))
        return PAM_BAD_ITEM;
    char **kept = (char **)&handle->items[item];
    int code = !handle->in_call ? get_text(handle, GET_ITEM, &rest, 1, kept) : is_token(item) ? PAM_BAD_ITEM : PAM_SUCCESS;
    if (code == PAM_SUCCESS)
        *value = *kept;
    return code;
}

int pam_fail_delay(pam_handle_t *handle, unsigned int micros)
{
    unsigned char rest[4];

    if (handle == NULL)
        return PAM_SYSTEM_ERR;
    if (handle->in_call) {
        if (handle->asked_delay < micros)
            handle->asked_delay = micros < LONGEST_WAIT ? micros : LONGEST_WAIT;
        return PAM_SUCCESS;
    }
    put_number(rest, micros);
    return wire_code(&handle->wire, FAIL_DELAY, rest, sizeof rest);
}

/* Where the value of a variable is stored; NULL if an allocation fails. */
static struct value *place_of(pam_handle_t *handle, const char *name)
{
    struct value *value = handle->variables;

    while (value != NULL && strcmp(value->name, name) != 0)
        value = value->next;
    if (value != NULL || (value = calloc(1, sizeof *value)) == NULL)
        return value;
    if ((value->name = strdup(name)) == NULL) {
        free(value);
        return NULL;
    }
    value->next = handle->variables;
    handle->variables = value;
    return value;
}

/* In a conversation: `NAME=VALUE`, or a NAME that is to be removed. */
static int put_later(pam_handle_t *handle, const char *text)
{
    size_t size = strcspn(text, "=");
    char *name = size > 0 ? strndup(text, size) : NULL;
    struct value *value = name != NULL ? place_of(handle, name) : NULL;

    free(name);
    if (value == NULL)
        return size > 0 ? PAM_BUF_ERR : PAM_BAD_ITEM;
    int code = call_or_later(handle, PUTENV, text, strlen(text));
    if (code == PAM_SUCCESS)
        keep_text(&value->text, text[size] == '=' ? strdup(text + size + 1) : NULL);
    return code;
}

int pam_putenv(pam_handle_t *handle, const char *text)
{
    if (handle == NULL)
        return PAM_ABORT;
    if (text == NULL)
        return PAM_PERM_DENIED;
    if (strlen(text) > MAX_TEXT)
        return PAM_BUF_ERR;
    return handle->in_call ? put_later(handle, text) : wire_code(&handle->wire, PUTENV, text, strlen(text));
}

const char *pam_getenv(pam_handle_t *handle, const char *name)
{
    struct value *value;

    if (handle == NULL || name == NULL || name[0] == '\0' || strlen(name) > MAX_TEXT || (value = place_of(handle, name)) == NULL)
        return NULL;
    if (handle->in_call)
        return value->text;
    return get_text(handle, GETENV, name, strlen(name), &value->text) == PAM_SUCCESS ? value->text : NULL;
}

/* The variables of an answer, so many; NULL if there are more or fewer. */
static char **read_list(const struct answer *answer, uint32_t said)
{
    char **list = calloc((size_t)said + 1, sizeof *list);
    const char *line = NULL;
    size_t count = 0;
    bool is_read = list != NULL;

    while (is_read && (line = next_line(answer, line)) != NULL) {
        const char *text = after(line, "env ");
        if (text != NULL)
            is_read = count < said && (list[count] = unquoted(text)) != NULL && ++count > 0;
    }
    if (is_read && count == said)
        return list;
    while (count > 0)
        free(list[--count]);
    free(list);
    return NULL;
}

char **pam_getenvlist(pam_handle_t *handle)
{
    struct answer answer;
    uint32_t said = 0;
    char **list = NULL;

    if (handle == NULL || handle->in_call || !wire_call(&handle->wire, ENVLIST, NULL, 0, &answer))
        return NULL;
    const char *rest = after_number(result_of(&answer, ENVLIST), &said);
    if (rest != NULL && *rest == '\0' && said <= answer.size)
        list = read_list(&answer, said);
    answer_free(&answer);
    log_broken(&handle->wire, list == NULL ? ODD_ANSWER : NULL);
    return list;
}

const char *pam_strerror(pam_handle_t *handle, int code)
{
    static const char *const texts[_PAM_RETURN_VALUES] = {
        "Success", "Failed to load module", "Symbol not found", "Error in service module", "System error",
        "Memory buffer error", "Permission denied", "Authentication failure",
        "Insufficient credentials to access authentication data",
        "Authentication service cannot retrieve authentication info",
        "User not known to the underlying authentication module", "Have exhausted maximum number of retries for service",
        "Authentication token is no longer valid; new one required", "User account has expired",
        "Cannot make/remove an entry for the specified session", "Authentication service cannot retrieve user credentials",
        "User credentials expired", "Failure setting user credentials", "No module specific data is present",
        "Conversation error", "Authentication token manipulation error", "Authentication information cannot be recovered",
        "Authentication token lock busy", "Authentication token aging disabled",
        "Failed preliminary check by password service", "The return value should be ignored by PAM dispatch",
        "Critical error - immediate abort", "Authentication token expired", "Module is unknown",
        "Bad item passed to pam_*_item()", "Conversation is waiting for event", "Application needs to call libpam again",
    };
    (void)handle;
    return code >= 0 && code < _PAM_RETURN_VALUES ? texts[code] : "Unknown PAM error";
}

/* USER, if it is set. Nobody is asked for it here: a module that wants it asks. */
int pam_get_user(pam_handle_t *handle, const char **user, const char *prompt)
{
    const void *value = NULL;
    int code = user != NULL ? pam_get_item(handle, PAM_USER, &value) : PAM_SYSTEM_ERR;

    (void)prompt;
    if (user != NULL)
        *user = value;
    return code == PAM_SUCCESS && value == NULL ? PAM_SYSTEM_ERR : code;
}

/* An application that calls these gets the same from libpam. */
int pam_get_data(const pam_handle_t *handle, const char *name, const void **data)
{
    (void)handle, (void)name, (void)data;
    return PAM_SYSTEM_ERR;
}

int pam_set_data(pam_handle_t *handle, const char *name, void *data, void (*cleanup)(pam_handle_t *, void *, int))
{
    (void)handle, (void)name, (void)data, (void)cleanup;
    return PAM_SYSTEM_ERR;
}

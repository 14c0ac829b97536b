/*
 * One stack call. Before the answer to the call there may be answers that end with `1 asks N`, one for each exchange of a
 * module: its texts are shown as they come, and for its N prompts N replies are sent, or one frame that says why there are none.
 */
#define _GNU_SOURCE
#include <stdlib.h>
#include <string.h>

#include "handle.h"

/* How many microseconds are waited if an authentication has no answer, as after a wrong password in pam_unix. */
#ifndef GONE_WAIT
#define GONE_WAIT 2000000
#endif

/* The reply to the question for a name: a module sets PAM_USER to it. */
static void know_user(pam_handle_t *handle, int style, const char *text, const char *reply)
{
    const char *prompt = handle->items[PAM_USER_PROMPT] != NULL ? handle->items[PAM_USER_PROMPT] : "login: ";
    if (style == PAM_PROMPT_ECHO_ON && handle->items[PAM_USER] == NULL && strcmp(text, prompt) == 0)
        keep_text(&handle->items[PAM_USER], strdup(reply));
}

/* Shows one text, `STYLE TEXT`. What the conversation returns counts only for prompts, for which there is room. */
static int show(pam_handle_t *handle, uint32_t style, const char *quoted, char **reply)
{
    char *text = quoted != NULL ? unquoted(quoted) : NULL;

    if (text == NULL || style < PAM_PROMPT_ECHO_OFF || style > PAM_TEXT_INFO) {
        free(text);
        return PAM_ABORT;
    }
    int code = ask_user(handle, (int)style, text, reply);
    if (reply == NULL)
        code = PAM_SUCCESS;
    else if (code != PAM_CONV_AGAIN && (code != PAM_SUCCESS || *reply == NULL || strlen(*reply) > MAX_TEXT))
        code = PAM_CONV_ERR;
    else if (code == PAM_SUCCESS)
        know_user(handle, (int)style, text, *reply);
    free(text);
    return code;
}

/* One exchange. Nothing is sent before all its replies are there. */
static bool exchange(pam_handle_t *handle, const struct answer *answer, uint32_t prompts)
{
    char *replies[PAM_MAX_NUM_MSG] = { NULL };
    const char *line = NULL;
    uint32_t count = 0, style = 0;
    int code = prompts <= PAM_MAX_NUM_MSG ? PAM_SUCCESS : PAM_ABORT;

    while (code == PAM_SUCCESS && (line = next_line(answer, line)) != NULL) {
        const char *text = after(after_number(after(line, "say "), &style), " ");
        bool asks = is_prompt((int)style);
        if (asks && count == prompts)
            code = PAM_ABORT;
        else
            code = show(handle, style, text, asks ? &replies[count++] : NULL);
    }
    if (code == PAM_SUCCESS && count != prompts)
        code = PAM_ABORT;
    bool is_sent = code != PAM_ABORT;
    if (is_sent && code != PAM_SUCCESS)
        is_sent = wire_send(&handle->wire, code == PAM_CONV_AGAIN ? AGAIN : GONE, NULL, 0);
    for (uint32_t i = 0; i < count; i++) {
        if (is_sent && code == PAM_SUCCESS)
            is_sent = wire_send(&handle->wire, REPLY, replies[i], strlen(replies[i]));
        wipe_free(replies[i]);
    }
    return is_sent;
}

/* The code of the call's own answer, once its log lines are written and its wait is over. */
static int finish(pam_handle_t *handle, enum kind kind, const struct answer *answer)
{
    int code = code_of(result_of(answer, kind));
    const char *line = NULL;
    bool has_waited = kind != AUTHENTICATE;

    handle->in_call = false;
    if (code >= 0)
        log_call(handle, kind, answer);
    while (code >= 0 && (line = next_line(answer, line)) != NULL) {
        const char *wait = after(line, "wait ");
        if (wait != NULL && !wait_after(handle, code, wait))
            code = -1;
        has_waited |= wait != NULL;
    }
    if (code > PAM_SUCCESS && !has_waited && handle->asked_delay > 0)
        wait_for(handle, code, handle->asked_delay, handle->asked_delay);
    return code;
}

/* The call is over: what it asked for in its conversation is done. A call that has no answer is a failure that is waited for, since
   who brought that about may know that it was one. */
static int end_call(pam_handle_t *handle, enum kind kind, int code)
{
    handle->in_call = false;
    handle->asked_delay = 0;
    if (code >= 0 && send_later(handle))
        return code;
    forget_later(handle);
    log_broken(&handle->wire, ODD_ANSWER);
    if (kind == AUTHENTICATE || kind == CHAUTHTOK)
        wait_for(handle, PAM_ABORT, GONE_WAIT, GONE_WAIT);
    return PAM_ABORT;
}

int stack_call(pam_handle_t *handle, enum kind kind, int flags)
{
    unsigned char rest[4];
    struct answer answer;
    uint32_t prompts;
    int code = -1;
    const void *user;

    if (handle->in_call || handle->wire.broken)
        return handle->in_call ? PAM_SYSTEM_ERR : PAM_ABORT;
    if (handle->items[PAM_USER] == NULL)
        (void)pam_get_item(handle, PAM_USER, &user); /* a module may have set it, and the conversation may ask for it */
    put_number(rest, (uint32_t)flags);
    handle->in_call = true;
    bool goes_on = wire_send(&handle->wire, kind, rest, sizeof rest);
    while (goes_on && wire_receive(&handle->wire, kind, &answer)) {
        goes_on = is_exchange(&answer, &prompts);
        if (goes_on)
            goes_on = exchange(handle, &answer, prompts);
        else
            code = finish(handle, kind, &answer);
        answer_free(&answer);
    }
    return end_call(handle, kind, code);
}

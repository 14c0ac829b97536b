/* The application's side: its conversation, and the wait after a failure. */
#define _GNU_SOURCE
#include <stdlib.h>
#include <string.h>
#include <time.h>

#include "handle.h"

void wipe_free(char *text)
{
    if (text != NULL)
        explicit_bzero(text, strlen(text));
    free(text);
}

bool is_prompt(int style)
{
    return style == PAM_PROMPT_ECHO_OFF || style == PAM_PROMPT_ECHO_ON;
}

int ask_user(const pam_handle_t *handle, int style, const char *text, char **reply)
{
    const struct pam_message message = { style, text }, *messages = &message;
    struct pam_response *responses = NULL;

    if (handle->conv.conv == NULL)
        return PAM_CONV_ERR;
    int code = handle->conv.conv(1, &messages, &responses, handle->conv.appdata_ptr);
    if (code != PAM_SUCCESS)
        return code; /* what it may have left then is its own */
    char *response = responses != NULL ? responses->resp : NULL;
    free(responses);
    if (reply != NULL)
        *reply = response;
    else
        wipe_free(response);
    return PAM_SUCCESS;
}

/* A signal that the application handles ends the wait, as in libpam. */
void wait_for(const pam_handle_t *handle, int code, uint32_t asked, uint32_t waited)
{
    const struct timespec time = { waited / 1000000, (long)(waited % 1000000) * 1000 };

    if (handle->delay != NULL)
        handle->delay(code, asked, handle->conv.appdata_ptr);
    else if (waited > 0)
        (void)nanosleep(&time, NULL);
}

bool wait_after(const pam_handle_t *handle, int code, const char *line)
{
    uint32_t number, asked, waited;
    const char *rest = strchr(line, ' ');

    rest = after_number(after(after_number(after(rest, " "), &number), " "), &asked);
    rest = after_number(after(rest, " "), &waited);
    if (rest == NULL || *rest != '\0')
        return false;
    if (code != PAM_SUCCESS && asked < handle->asked_delay)
        asked = handle->asked_delay;
    if (code != PAM_SUCCESS && waited < handle->asked_delay)
        waited = handle->asked_delay;
    wait_for(handle, code, asked, waited);
    return true;
}

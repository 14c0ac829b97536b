/* What an application does with its handle in its own conversation, while the process waits for replies: display managers ask for
   PAM_USER there. Items and variables are those that this side knows; what is set is sent when the call is over. */
#define _GNU_SOURCE
#include <stdlib.h>
#include <string.h>

#include "handle.h"

void keep_text(char **kept, char *text)
{
    bool is_same = *kept != NULL && text != NULL && strcmp(*kept, text) == 0;
    wipe_free(is_same ? text : *kept);
    if (!is_same)
        *kept = text;
}

int call_or_later(pam_handle_t *handle, enum kind kind, const void *rest, size_t size)
{
    struct later **end = &handle->later;

    if (!handle->in_call)
        return wire_code(&handle->wire, kind, rest, size);
    while (*end != NULL)
        end = &(*end)->next;
    struct later *one = malloc(sizeof *one + size);
    if (one == NULL)
        return PAM_BUF_ERR;
    *one = (struct later){ .kind = kind, .size = size };
    memcpy(one->rest, rest, size);
    *end = one;
    return PAM_SUCCESS;
}

void forget_later(pam_handle_t *handle)
{
    while (handle->later != NULL) {
        struct later *first = handle->later;
        handle->later = first->next;
        explicit_bzero(first->rest, first->size);
        free(first);
    }
}

bool send_later(pam_handle_t *handle)
{
    for (const struct later *one = handle->later; one != NULL && !handle->wire.broken; one = one->next)
        (void)wire_code(&handle->wire, one->kind, one->rest, one->size);
    forget_later(handle);
    return !handle->wire.broken;
}

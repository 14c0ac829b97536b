/* Frames and answers (docs/wire.md). Nothing in an answer is trusted: after one wrong byte nothing more is sent or believed. */
#define _GNU_SOURCE
#include <errno.h>
#include <poll.h>
#include <stdlib.h>
#include <string.h>
#include <sys/socket.h>
#include <sys/stat.h>
#include <time.h>
#include <unistd.h>

#include "handle.h"

static const char *const words[] = {
    [START] = "start", [END] = "end", [AUTHENTICATE] = "authenticate", [SETCRED] = "setcred",
    [ACCT_MGMT] = "acct_mgmt", [OPEN_SESSION] = "open_session", [CLOSE_SESSION] = "close_session",
    [CHAUTHTOK] = "chauthtok", [SET_ITEM] = "set_item", [GET_ITEM] = "get_item", [PUTENV] = "putenv",
    [GETENV] = "getenv", [ENVLIST] = "envlist", [FAIL_DELAY] = "fail_delay", [DELAY] = "delay",
};

void put_number(unsigned char *at, uint32_t number)
{
    for (int i = 0; i < 4; i++)
        at[i] = (unsigned char)(number >> (24 - 8 * i));
}

/* The application may have closed the descriptor, and another file may have its number. */
static bool is_ours(const struct wire *wire)
{
    struct stat found;
    return fstat(wire->fd, &found) == 0 && found.st_dev == wire->dev && found.st_ino == wire->ino;
}

static int64_t now_in_millis(void)
{
    struct timespec time;
    (void)clock_gettime(CLOCK_MONOTONIC, &time);
    return (int64_t)time.tv_sec * 1000 + time.tv_nsec / 1000000;
}

/* Waits until the socket is ready, but not beyond a time: the process may be stopped. */
static bool is_ready(int fd, short events, int64_t until)
{
    struct pollfd one = { .fd = fd, .events = events };
    for (;;) {
        int64_t left = until - now_in_millis();
        int ready = left > 0 ? poll(&one, 1, (int)left) : 0;
        if (ready >= 0 || errno != EINTR)
            return ready > 0;
    }
}

/* Sends as who called pam_start, for pam_gate (gate.c). The kernel refuses that to a process that has given these rights up: then as
   who it is now, which is enough to ask for items and variables. */
static ssize_t send_as(const struct wire *wire, void *bytes, size_t size)
{
    union { char room[CMSG_SPACE(sizeof(struct ucred))]; struct cmsghdr header; } control = { .room = { 0 } };
    const struct ucred own = { .pid = getpid(), .uid = wire->user, .gid = wire->user == 0 ? getegid() : wire->group };
    struct iovec part = { bytes, size };
    const struct msghdr message = { .msg_iov = &part, .msg_iovlen = 1, .msg_control = control.room, .msg_controllen = sizeof control.room };

    control.header = (struct cmsghdr){ .cmsg_len = CMSG_LEN(sizeof own), .cmsg_level = SOL_SOCKET, .cmsg_type = SCM_CREDENTIALS };
    memcpy(CMSG_DATA(&control.header), &own, sizeof own);
    ssize_t sent = sendmsg(wire->fd, &message, MSG_NOSIGNAL | MSG_DONTWAIT);
    return sent < 0 && errno == EPERM ? send(wire->fd, bytes, size, MSG_NOSIGNAL | MSG_DONTWAIT) : sent;
}

/* Sends or receives exactly so many bytes, so a copy of this process may go on with the next call. Returns what went wrong, or
   NULL. */
static const char *transfer(const struct wire *wire, bool sends, void *bytes, size_t size, int64_t until)
{
    unsigned char *at = bytes;
    while (size > 0) {
        ssize_t moved = sends ? send_as(wire, at, size) : recv(wire->fd, at, size, MSG_DONTWAIT);
        if (moved > 0) {
            at += moved;
            size -= (size_t)moved;
        } else if (moved == 0 || (errno != EAGAIN && errno != EINTR)) {
            return "the process is gone";
        } else if (!is_ready(wire->fd, sends ? POLLOUT : POLLIN, until)) {
            return "the process doesn't answer";
        }
    }
    return NULL;
}

/* Returns what went wrong, or NULL. */
static const char *receive_answer(const struct wire *wire, struct answer *answer)
{
    int64_t until = now_in_millis() + PATIENCE * 1000;
    unsigned char length[8];
    uint64_t size = 0;
    const char *fault = transfer(wire, false, length, sizeof length, until);

    if (fault != NULL)
        return fault;
    for (size_t i = 0; i < sizeof length; i++)
        size = size << 8 | length[i];
    if (size > MAX_ANSWER)
        return "the process's answer is too long";
    if ((answer->text = malloc(size + 1)) == NULL)
        return "there is no memory for the process's answer";
    answer->text[size] = '\0';
    answer->size = size;
    return transfer(wire, false, answer->text, size, until);
}

/* Whether a line may come before the last one. */
static bool is_detail(const char *line)
{
    static const char *const details[] = { "say ", "line ", "clean ", "wait ", "note ", "env " };
    for (size_t i = 0; i < sizeof details / sizeof *details; i++)
        if (after(line, details[i]) != NULL)
            return true;
    return false;
}

/* Makes a string of each line. Returns whether they are lines, and the last is a possible answer to the call. */
static bool is_well_formed(struct answer *answer, enum kind kind)
{
    char *at = answer->text, *end = at + answer->size, *newline;
    uint32_t prompts;

    if (memchr(at, 0, answer->size) != NULL)
        return false;
    for (; at < end; at = newline + 1) {
        if (answer->last != NULL && !is_detail(answer->last))
            return false;
        answer->last = after(at, "1 ");
        if (answer->last == NULL || (newline = strchr(at, '\n')) == NULL)
            return false;
        *newline = '\0';
    }
    if (answer->last == NULL)
        return false;
    return result_of(answer, kind) != NULL || (kind >= AUTHENTICATE && kind <= CHAUTHTOK && is_exchange(answer, &prompts));
}

size_t wire_frame(unsigned char *frame, enum kind kind, const void *rest, size_t size)
{
    frame[0] = (unsigned char)((size + 2) >> 8);
    frame[1] = (unsigned char)(size + 2);
    frame[2] = 1;
    frame[3] = (unsigned char)kind;
    if (size > 0)
        memcpy(frame + 4, rest, size);
    return size + 4;
}

bool wire_send(struct wire *wire, enum kind kind, const void *rest, size_t size)
{
    unsigned char frame[4 + MAX_REST];

    if (wire->broken || size > MAX_REST)
        return false;
    size_t whole = wire_frame(frame, kind, rest, size);
    const char *fault = is_ours(wire) ? transfer(wire, true, frame, whole, now_in_millis() + PATIENCE * 1000) : NOT_OURS;
    explicit_bzero(frame, sizeof frame);
    log_broken(wire, fault);
    return !wire->broken;
}

bool wire_receive(struct wire *wire, enum kind kind, struct answer *answer)
{
    *answer = (struct answer){ .text = NULL };
    if (wire->broken)
        return false;
    const char *fault = is_ours(wire) ? receive_answer(wire, answer) : NOT_OURS;
    if (fault == NULL && !is_well_formed(answer, kind))
        fault = ODD_ANSWER;
    log_broken(wire, fault);
    if (wire->broken)
        answer_free(answer);
    return !wire->broken;
}

bool wire_call(struct wire *wire, enum kind kind, const void *rest, size_t size, struct answer *answer)
{
    *answer = (struct answer){ .text = NULL };
    return wire_send(wire, kind, rest, size) && wire_receive(wire, kind, answer);
}

int wire_code(struct wire *wire, enum kind kind, const void *rest, size_t size)
{
    struct answer answer;
    int code = wire_call(wire, kind, rest, size, &answer) ? code_of(result_of(&answer, kind)) : -1;

    answer_free(&answer);
    log_broken(wire, code < 0 ? ODD_ANSWER : NULL);
    return code < 0 ? PAM_ABORT : code;
}

void wire_close(struct wire *wire)
{
    if (is_ours(wire))
        close(wire->fd);
    wire->broken = true;
}

void answer_free(struct answer *answer)
{
    if (answer->text != NULL)
        explicit_bzero(answer->text, answer->size);
    free(answer->text);
    *answer = (struct answer){ .text = NULL };
}

const char *after(const char *text, const char *word)
{
    size_t size = strlen(word);
    return text != NULL && strncmp(text, word, size) == 0 ? text + size : NULL;
}

const char *after_number(const char *text, uint32_t *number)
{
    uint64_t found = 0;
    size_t digits = 0;

    while (text != NULL && text[digits] >= '0' && text[digits] <= '9' && digits < 11)
        found = found * 10 + (uint64_t)(text[digits++] - '0');
    if (digits == 0 || digits > 10 || found > UINT32_MAX)
        return NULL;
    *number = (uint32_t)found;
    return text + digits;
}

const char *next_line(const struct answer *answer, const char *line)
{
    const char *next = line == NULL ? answer->text + 2 : line + strlen(line) + 3;
    return next == answer->last ? NULL : next;
}

const char *result_of(const struct answer *answer, enum kind kind)
{
    return after(after(answer->last, words[kind]), " ");
}

bool is_exchange(const struct answer *answer, uint32_t *prompts)
{
    const char *rest = after_number(after(answer->last, "asks "), prompts);
    return rest != NULL && *rest == '\0';
}

int code_of(const char *result)
{
    uint32_t number = 0;

    if (result != NULL && strcmp(result, "SUCCESS 0") == 0)
        return PAM_SUCCESS;
    const char *space = result != NULL ? strchr(result, ' ') : NULL;
    const char *rest = space != NULL ? after_number(space + 1, &number) : NULL;
    if (rest == NULL || number == PAM_SUCCESS || number >= _PAM_RETURN_VALUES)
        return -1;
    return *rest == '\0' || (number == PAM_ABORT && after(rest, " pending ") != NULL) ? (int)number : -1;
}

static int hex_digit(char c)
{
    return c >= '0' && c <= '9' ? c - '0' : c >= 'a' && c <= 'f' ? c - 'a' + 10 : -1;
}

/* What follows the byte that a quoted text begins with, or NULL. */
static const char *after_byte(const char *text, char *byte)
{
    *byte = *text;
    if (*text < ' ' || *text > '~')
        return NULL;
    if (*text != '\\' || text[1] == '\\')
        return text + (*text == '\\' ? 2 : 1);
    int high = text[1] == 'x' ? hex_digit(text[2]) : -1, low = high < 0 ? -1 : hex_digit(text[3]);
    *byte = (char)(high * 16 + low);
    return low < 0 ? NULL : text + 4;
}

char *unquoted(const char *text)
{
    char *whole = malloc(strlen(text) + 1), *to = whole;

    while (whole != NULL && *text != '\0')
        if ((text = after_byte(text, to++)) == NULL) {
            free(whole);
            return NULL;
        }
    if (whole != NULL)
        *to = '\0';
    return whole;
}

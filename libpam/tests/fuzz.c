/*
 * Random answers: `fuzz SEED COUNT`. In place of a process there is a socket that holds bytes already: answers as they should
 * be, with bytes changed, cut, doubled or put in. Built with the sanitizers. What must hold: no fault; no call returns SUCCESS
 * unless an answer that ends with its line of success is in the bytes; after an answer that broke the wire every call is ABORT.
 */
#define _GNU_SOURCE
#include <assert.h>
#include <stdio.h>
#include <stdlib.h>
#include <string.h>
#include <sys/ioctl.h>
#include <sys/socket.h>
#include <sys/stat.h>
#include <time.h>
#include <unistd.h>

#include "../src/handle.h"

/* What the library makes of an answer is looked at when it writes the log, so its function has another name here. */
#define log_call really_log
static void really_log(pam_handle_t *handle, enum kind kind, const struct answer *answer);
#include "../src/log.c"
#undef log_call

static uint64_t state;
static unsigned char stream[1 << 16];
static size_t streamed;
static int other = -1;

static uint32_t draw(uint32_t below)
{
    state ^= state << 13;
    state ^= state >> 7;
    state ^= state << 17;
    return (uint32_t)(state % below);
}

/* Nobody waits, and nothing goes to the system's log; what would is one line that can be printed. */
int nanosleep(const struct timespec *time, struct timespec *left)
{
    (void)time, (void)left;
    return 0;
}

void syslog(int priority, const char *format, ...)
{
    char text[4096];
    va_list arguments;
    (void)priority;
    va_start(arguments, format);
    assert(vsnprintf(text, sizeof text, format, arguments) < (int)sizeof text);
    va_end(arguments);
    for (const char *at = text; *at != '\0'; at++)
        assert(*at >= ' ' && *at <= '~');
}

/* Where in the bytes the answer ends that the library takes for the call's own. */
static size_t answered;

void log_call(pam_handle_t *handle, enum kind kind, const struct answer *answer)
{
    int unread = 0;
    assert(ioctl(handle->wire.fd, FIONREAD, &unread) == 0);
    answered = streamed - (size_t)unread;
    really_log(handle, kind, answer);
}

/* Whether an answer ends there, the last line of which is this. */
static bool ends_with(const char *line)
{
    size_t size = strlen(line);
    if (answered < size + 8 || memcmp(stream + answered - size, line, size) != 0)
        return false;
    const unsigned char *begin = stream + answered - size;
    return begin[-1] == '\n' || (begin[-1] == size && begin[-2] == 0);
}

bool server_start(struct wire *wire, const void *rest, size_t size, const char **lacks)
{
    int pair[2];
    (void)rest, (void)size;
    *lacks = NULL;
    struct stat found;
    assert(socketpair(AF_UNIX, SOCK_STREAM | SOCK_CLOEXEC, 0, pair) == 0 && fstat(pair[0], &found) == 0);
    assert(write(pair[1], stream, streamed) == (ssize_t)streamed);
    shutdown(pair[1], SHUT_WR);
    other = pair[1];
    *wire = (struct wire){ .fd = pair[0], .dev = found.st_dev, .ino = found.st_ino, .user = geteuid(), .group = getegid() };
    return true;
}

static void put(const void *bytes, size_t size)
{
    if (streamed + size <= sizeof stream) {
        memcpy(stream + streamed, bytes, size);
        streamed += size;
    }
}

static void answer(const char *text)
{
    unsigned char length[8] = { 0 };
    put_number(length + 4, (uint32_t)strlen(text));
    put(length, 8);
    put(text, strlen(text));
}

/* The first two have a prompt, the fifth has two. */
static const char *const pieces[] = {
    "1 say 1 Password: \n", "1 say 2 Code:\n", "1 say 3 no\\x0a\n", "1 say 4 \\\\hello\\\\ \\x00\n", "1 say 2 Code:\n1 say 1 Again:\n",
    "1 line 1 pam_unix INCOMPLETE 31\n", "1 line 1 pam_unix AUTH_ERR 7\n", "1 line 2 pam_x SUCCESS 0\n", "1 wait AUTH_ERR 7 3 0\n",
    "1 clean 0 00000000 1 pam_unix a\n", "1 note missing pam_none\n", "1 wait AUTH_ERR 7 99999999999 0\n", "2 say 1 x\n", "1 say 9 x\n",
};
static const char *const results[] = { "INCOMPLETE 31", "INCOMPLETE 31", "SUCCESS 0", "AUTH_ERR 7", "ABORT 26 pending setcred", "SUCCESS 1", "AUTH_ERR 0", "set a\\x62", "unset" };
static const char *const calls[] = { "authenticate", "setcred", "acct_mgmt", "open_session", "close_session", "chauthtok" };
static int (*const made[])(pam_handle_t *, int) = { pam_authenticate, pam_setcred, pam_acct_mgmt, pam_open_session, pam_close_session, pam_chauthtok };

static void stack_answer(const char *call)
{
    char text[1024] = "";
    for (uint32_t n = draw(4); n > 0; n--)
        strcat(text, pieces[draw(sizeof pieces / sizeof *pieces)]);
    strcat(text, "1 ");
    strcat(text, call);
    strcat(text, " ");
    strcat(text, results[draw(3) ? draw(4) : draw(sizeof results / sizeof *results)]);
    strcat(text, "\n");
    answer(text);
}

/* A likely course: some exchanges, and the answer. */
static void stack_course(const char *call)
{
    char text[1024];
    for (uint32_t times = draw(4); times > 0; times--) {
        uint32_t one = draw(5), last = draw(2), prompts = 1 + (one < 2) + 2 * (one == 4);
        snprintf(text, sizeof text, "%s%s1 asks %u\n", pieces[one], pieces[last], draw(9) ? prompts : draw(40));
        answer(text);
    }
    stack_answer(call);
}

static void spoil(void)
{
    for (uint32_t n = draw(4); n > 0 && streamed > 0; n--) {
        size_t at = draw((uint32_t)streamed), size = 1 + draw(12);
        if (size > streamed - at)
            size = streamed - at;
        switch (draw(4)) {
        case 0: stream[at] = (unsigned char)draw(256); break;
        case 1: stream[at] ^= (unsigned char)(1 << draw(8)); break;
        case 2: memmove(stream + at, stream + at + size, streamed - at - size); streamed -= size; break;
        default:
            if (streamed + size < sizeof stream) {
                memmove(stream + at + size, stream + at, streamed - at);
                streamed += size;
            }
        }
    }
}

/* What an application does with its handle in its conversation. */
static pam_handle_t *own;
static void use_handle(void)
{
    const void *item = NULL;
    switch (draw(own != NULL ? 12 : 1)) {
    case 1: (void)pam_get_item(own, (int)draw(16), &item); break;
    case 2: (void)pam_getenv(own, "A"); break;
    case 3: assert(pam_authenticate(own, 0) == PAM_SYSTEM_ERR); break;
    case 4: assert(pam_end(own, 0) == PAM_SYSTEM_ERR); break;
    case 5: (void)pam_set_item(own, draw(2) ? PAM_USER : PAM_AUTHTOK, draw(4) ? "x" : NULL); break;
    case 6: (void)pam_putenv(own, draw(4) ? "A=x" : "A"); break;
    case 7: (void)pam_fail_delay(own, draw(3)); break;
    default: break;
    }
}

static int talk(int count, const struct pam_message **messages, struct pam_response **responses, void *data)
{
    (void)data;
    use_handle();
    for (int i = 0; i < count; i++)
        assert(messages[i]->msg != NULL && strlen(messages[i]->msg) < 1 << 20);
    uint32_t what = draw(20);
    *responses = NULL;
    if (what == 0)
        return PAM_CONV_ERR;
    if (what == 1)
        return PAM_CONV_AGAIN;
    if (what == 2)
        return PAM_SUCCESS;
    *responses = calloc((size_t)count, sizeof **responses);
    if (what == 3)
        return PAM_SUCCESS;
    (*responses)->resp = malloc(600);
    memset((*responses)->resp, 'x', 599);
    (*responses)->resp[what == 4 ? 599 : draw(513)] = '\0';
    return PAM_SUCCESS;
}

int main(int count, char **words)
{
    struct pam_conv conv = { talk, NULL };
    uint64_t results_seen[32] = { 0 };
    assert(count == 3);
    uint64_t seed = strtoull(words[1], NULL, 10), cases = strtoull(words[2], NULL, 10);

    for (uint64_t one = 0; one < cases; one++) {
        pam_handle_t *handle = NULL;
        const void *item = NULL;
        state = (seed + one) * 0x9E3779B97F4A7C15u + 1;
        streamed = 0;
        uint32_t call = draw(6), times = 1 + draw(3), has_user = draw(2);
        own = NULL;
        answer(draw(20) ? "1 start SUCCESS 0\n" : "1 start refused /etc/pam.d/t 1 BadControl 5\n");
        for (uint32_t i = 0; i < times; i++) {
            if (!has_user) /* which is asked for before the call */
                answer("1 get_item unset\n");
            for (uint32_t n = 1 + draw(4); n > 0; n--)
                if (draw(2))
                    stack_course(calls[call]);
                else
                    stack_answer(calls[call]);
        }
        if (draw(2))
            answer("1 set_item SUCCESS 0\n");
        answer("1 get_item set joe\\\\ \\x41\n");
        answer("1 env A=b\n1 env C=\n1 envlist 2\n");
        answer("1 getenv unset\n");
        answer("1 end SUCCESS 0\n");
        if (draw(3))
            spoil();
        char success[64];
        snprintf(success, sizeof success, "1 %s SUCCESS 0\n", calls[call]);
        if (pam_start("t", has_user ? "joe" : NULL, &conv, &handle) != PAM_SUCCESS) {
            assert(handle == NULL);
        } else {
            own = draw(2) ? handle : NULL;
            for (uint32_t i = 0; i < times; i++) {
                bool was_broken = handle->wire.broken;
                answered = 0;
                int code = made[call](handle, (int)draw(2));
                assert(code >= 0 && code < 32);
                assert(code != PAM_SUCCESS || ends_with(success));
                assert(!was_broken || code == PAM_ABORT);
                results_seen[code]++;
            }
            if (pam_get_item(handle, (int)draw(16), &item) == PAM_SUCCESS && item == (const void *)1)
                return 1;
            char **list = pam_getenvlist(handle);
            for (char **at = list; at != NULL && *at != NULL; at++)
                free(*at);
            free(list);
            (void)pam_getenv(handle, "A");
            (void)pam_set_item(handle, (int)draw(16), NULL);
            pam_end(handle, 0);
        }
        close(other);
    }
    for (int code = 0; code < 32; code++)
        if (results_seen[code] > 0)
            printf("%s: %llu\n", pam_strerror(NULL, code), (unsigned long long)results_seen[code]);
    return 0;
}

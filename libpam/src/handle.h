/*
 * What the files of the library share. docs/clients.md says what the library is and who does what.
 *
 *   server.c  starts the process            gate.c  a program: who may send to the process
 *   wire.c    frames out, answers in          talk.c  one stack call and its prompts
 *   user.c    the application's conversation and its wait      later.c  what it does with its handle in its conversation
 *   log.c     what goes to the system's log   pam.c   the calls of libpam that applications make     ext.c  those of modules
 */
#ifndef HANDLE_H
#define HANDLE_H

#include <stdbool.h>
#include <stddef.h>
#include <stdint.h>
#include <sys/types.h>

#define LIBPAM_COMPILE /* arguments that the headers declare as non-null are tested here */
#include <security/pam_appl.h>

/* docs/wire.md: a text, a service's name, what follows the kind in a frame. The last: the longest answer. */
enum { MAX_TEXT = 512, MAX_SERVICE = 64, MAX_REST = 578, MAX_ANSWER = 1 << 20 };

#define NOT_OURS "the application closed the socket of the process"
#define ODD_ANSWER "the process's answer isn't one"

/* The kinds of the frames (docs/wire.md). */
enum kind {
    START = 1, END, AUTHENTICATE, SETCRED, ACCT_MGMT, OPEN_SESSION, CLOSE_SESSION, CHAUTHTOK,
    SET_ITEM, GET_ITEM, PUTENV, GETENV, ENVLIST, FAIL_DELAY, DELAY, REPLY, GONE, AGAIN
};

/* The socket to the process, and the application's effective IDs when it began. `broken` stays set once anything went wrong;
   nothing is sent or believed from then on. */
struct wire {
    int fd;
    dev_t dev;
    ino_t ino;
    uid_t user;
    gid_t group;
    bool broken;
};

/* A value of a variable that the application has got, kept for as long as it stays the same. */
struct value {
    struct value *next;
    char *name, *text;
};

/* A frame that the application made in its conversation, while the process waits for replies: it is sent when the call is over. */
struct later {
    struct later *next;
    enum kind kind;
    size_t size;
    unsigned char rest[];
};

typedef void delay_fn(int code, unsigned int micros, void *appdata);

struct pam_handle {
    struct wire wire;
    pid_t starter;
    bool in_call; /* a stack call has begun and isn't over */
    struct pam_conv conv;
    delay_fn *delay;
    unsigned asked_delay; /* in a conversation, by pam_fail_delay */
    char service[MAX_SERVICE + 1];
    char *items[PAM_AUTHTOK_TYPE + 1]; /* the values as far as they are known; those that were handed out stay where they are */
    struct value *variables;
    struct later *later;
};

/* Lines, each a string: "1 " and what the report says. The last is the call's result, or ends an exchange. */
struct answer {
    char *text;
    size_t size;
    const char *last; /* without its "1 " */
};

/* server.c */
/* Starts a process and sends it START. If a limit can't be raised, that is named. */
bool server_start(struct wire *wire, const void *rest, size_t size, const char **lacks);

/* wire.c */
/* Makes a frame of at most 4 + MAX_REST bytes, and returns how many it has. */
size_t wire_frame(unsigned char *frame, enum kind kind, const void *rest, size_t size);
bool wire_send(struct wire *wire, enum kind kind, const void *rest, size_t size);
bool wire_receive(struct wire *wire, enum kind kind, struct answer *answer);
bool wire_call(struct wire *wire, enum kind kind, const void *rest, size_t size, struct answer *answer);
/* A call whose result is a code; PAM_ABORT if there is no such answer. */
int wire_code(struct wire *wire, enum kind kind, const void *rest, size_t size);
void wire_close(struct wire *wire);
void answer_free(struct answer *answer);
/* The line after this one, or the first, without its "1 "; NULL if that is the last. */
const char *next_line(const struct answer *answer, const char *line);
/* What follows the call's name in the last line; NULL if that isn't the call's result. */
const char *result_of(const struct answer *answer, enum kind kind);
/* Whether the last line is `asks N`. */
bool is_exchange(const struct answer *answer, uint32_t *prompts);
/* The code of a result `NAME NUMBER`, or -1. It is PAM_SUCCESS only for `SUCCESS 0`. */
int code_of(const char *result);
/* What follows a word that the text begins with, or NULL. */
const char *after(const char *text, const char *word);
/* What follows a number that the text begins with, or NULL. */
const char *after_number(const char *text, uint32_t *number);
/* A quoted text as it was; NULL if it isn't one, or if an allocation fails. */
char *unquoted(const char *text);
void put_number(unsigned char *at, uint32_t number);

/* talk.c */
int stack_call(pam_handle_t *handle, enum kind kind, int flags);

/* later.c */
/* Remembers a value, which stays where it is if it is the same. The text is the handle's from then on. */
void keep_text(char **kept, char *text);
/* Sends a call whose result is a code, or keeps it for later. */
int call_or_later(pam_handle_t *handle, enum kind kind, const void *rest, size_t size);
bool send_later(pam_handle_t *handle);
void forget_later(pam_handle_t *handle);

/* user.c */
bool is_prompt(int style);
/* Gives one message to the conversation. The reply to a prompt is stored if there is room for it. */
int ask_user(const pam_handle_t *handle, int style, const char *text, char **reply);
void wipe_free(char *text);
/* The wait after a failure, or the application's own function in its place. */
void wait_for(const pam_handle_t *handle, int code, uint32_t asked, uint32_t waited);
/* The wait that follows an authentication, `NAME NUMBER ASKED WAIT`. */
bool wait_after(const pam_handle_t *handle, int code, const char *line);

/* log.c */
void log_say(const pam_handle_t *handle, int priority, const char *who, const char *type, const char *format, ...)
    __attribute__((format(printf, 5, 6)));
/* That nothing is sent or believed any more; once. */
void log_broken(struct wire *wire, const char *why);
/* What the lines of a stack call have for the log. */
void log_call(pam_handle_t *handle, enum kind kind, const struct answer *answer);

#endif

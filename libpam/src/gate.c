/*
 * pam_gate: it is before pam_service, and passes on what still comes from who called pam_start. Standard input is the socket of
 * the application, of which its copies have the other end too, and standard output is a pipe to pam_service.
 *
 * A daemon of root's makes copies of itself that work for a user and give up their rights for good, such as sshd's and vsftpd's
 * session processes. Whoever takes one over has the socket, and without this could change root's password. So a frame (docs/wire.md)
 * that decides or changes anything is passed on only if its sender has the user that the application had at pam_start, as its real,
 * effective or saved user, for which the kernel vouches (SCM_CREDENTIALS); if that isn't root, the group too. All others may ask for
 * items and variables, as su and sshd do, and the process that called pam_start may end its transaction.
 *
 * It is begun at each start, so it does without the C library, which takes twice as long to begin as the rest of it.
 */
#define _GNU_SOURCE
#include <poll.h>
#include <stdbool.h>
#include <stddef.h>
#include <stdint.h>
#include <sys/prctl.h>
#include <sys/socket.h>
#include <sys/syscall.h>
#include <unistd.h>

enum { LONGEST = 582, MOST = 32 * LONGEST }; /* a frame, and all the replies of one exchange */
enum { END = 2, GET_ITEM = 10, GETENV = 12, ENVLIST = 13, DELAY = 15 };

/* Frames in whole, from one sender. */
struct message {
    unsigned char bytes[MOST];
    size_t size;
    struct ucred sender; /* the user and the group are -1 if they aren't known */
};

/* A system call: its result, or the negative of an error. */
static long call(long number, long a, long b, long c, long d, long e)
{
#if defined __x86_64__
    long result;
    register long fourth __asm__("r10") = d, fifth __asm__("r8") = e, sixth __asm__("r9") = 0;
    __asm__ volatile("syscall" : "=a"(result) : "a"(number), "D"(a), "S"(b), "d"(c), "r"(fourth), "r"(fifth), "r"(sixth)
        : "rcx", "r11", "memory");
    return result;
#elif defined __aarch64__
    register long which __asm__("x8") = number, first __asm__("x0") = a, second __asm__("x1") = b, third __asm__("x2") = c;
    register long fourth __asm__("x3") = d, fifth __asm__("x4") = e, sixth __asm__("x5") = 0;
    __asm__ volatile("svc 0" : "+r"(first) : "r"(which), "r"(second), "r"(third), "r"(fourth), "r"(fifth), "r"(sixth) : "memory");
    return first;
#else
#error "the system calls of this processor aren't known here"
#endif
}

static void copy(void *to, const void *from, size_t size)
{
    unsigned char *at = to;
    for (const unsigned char *source = from; size > 0; size--)
        *at++ = *source++;
}

static void wipe(unsigned char *bytes, size_t size)
{
    for (volatile unsigned char *at = bytes; size > 0; size--)
        *at++ = 0;
}

static bool receive(struct message *message)
{
    union { char room[CMSG_SPACE(sizeof(struct ucred))]; struct cmsghdr align; } control;
    struct iovec part = { message->bytes, sizeof message->bytes };
    struct msghdr header = { .msg_iov = &part, .msg_iovlen = 1, .msg_control = control.room, .msg_controllen = sizeof control.room };
    long got = call(SYS_recvmsg, 0, (long)&header, MSG_CMSG_CLOEXEC, 0, 0);
    const struct cmsghdr *first = got > 0 ? CMSG_FIRSTHDR(&header) : NULL;

    message->size = got > 0 ? (size_t)got : 0;
    message->sender = (struct ucred){ .pid = -1, .uid = (uid_t)-1, .gid = (gid_t)-1 };
    if (first != NULL && first->cmsg_level == SOL_SOCKET && first->cmsg_type == SCM_CREDENTIALS && (header.msg_flags & MSG_CTRUNC) == 0)
        copy(&message->sender, CMSG_DATA(first), sizeof message->sender);
    return got > 0;
}

/* How long the frame is that begins there, with its length; 0 if it isn't whole. */
static size_t frame_at(const struct message *message, size_t at)
{
    size_t left = message->size - at, size = left >= 4 ? (size_t)message->bytes[at] << 8 | message->bytes[at + 1] : 0;
    return size >= 2 && size + 2 <= left ? size + 2 : 0;
}

/* Whether frames are whole up to the end. */
static bool is_whole(const struct message *message)
{
    size_t at = 0, size;
    while (at < message->size && (size = frame_at(message, at)) > 0)
        at += size;
    return at == message->size;
}

/* Answers in the process's place: PERM_DENIED. */
static bool refuse(unsigned char kind)
{
    static const char names[][16] = { "start", "end", "authenticate", "setcred", "acct_mgmt", "open_session", "close_session",
        "chauthtok", "set_item", "get_item", "putenv", "getenv", "envlist", "fail_delay", "delay" };
    static const char code[] = " PERM_DENIED 6\n";
    unsigned char answer[64] = { [8] = '1', [9] = ' ' };
    size_t size = 10;

    if (kind < 1 || kind > DELAY)
        return true; /* a reply has no answer */
    for (const char *at = names[kind - 1]; *at != '\0'; at++)
        answer[size++] = (unsigned char)*at;
    copy(answer + size, code, sizeof code - 1);
    size += sizeof code - 1;
    answer[7] = (unsigned char)(size - 8);
    return call(SYS_sendto, 0, (long)answer, (long)size, MSG_NOSIGNAL, 0) == (long)size;
}

static bool write_all(const unsigned char *bytes, size_t size)
{
    while (size > 0) {
        long wrote = call(SYS_write, 1, (long)bytes, (long)size, 0, 0);
        if (wrote <= 0)
            return false;
        bytes += wrote;
        size -= (size_t)wrote;
    }
    return true;
}

/* Passes frames on, or refuses them. False if that isn't possible, or one isn't whole. */
static bool pass(const struct message *message, const struct ucred *starter)
{
    const struct ucred *sender = &message->sender;
    bool has_rights = sender->uid == starter->uid && (sender->uid == 0 || sender->gid == starter->gid), goes_on = true;

    if (!is_whole(message))
        return !has_rights; /* what others send in part is dropped, and nobody else's frames with it */
    if (has_rights)
        return write_all(message->bytes, message->size);
    for (size_t at = 0, size; goes_on && at < message->size; at += size) {
        unsigned char kind = message->bytes[at + 3];
        size = frame_at(message, at);
        bool may = kind == GET_ITEM || kind == GETENV || kind == ENVLIST || (kind == END && sender->pid == starter->pid);
        goes_on = may ? write_all(message->bytes + at, size) : refuse(kind);
    }
    return goes_on;
}

_Noreturn void _start(void);
_Noreturn void _start(void)
{
    struct message message; /* on the stack, so the program has one segment, and begins faster */
    struct pollfd ends[] = { { .fd = 0, .events = POLLIN }, { .fd = 1 } };
    struct ucred starter; /* who called pam_start, and sent the first frame to pam_service itself */
    socklen_t size = sizeof starter;
    bool goes_on = call(SYS_getsockopt, 0, SOL_SOCKET, SO_PEERCRED, (long)&starter, (long)&size) == 0;

    (void)call(SYS_prctl, PR_SET_DUMPABLE, 0, 0, 0, 0); /* passwords go through it */
    /* The pipe is in error once pam_service has ended: then the application must see the end of its socket. */
    while (goes_on && call(SYS_ppoll, (long)ends, 2, 0, 0, 0) > 0 && ends[1].revents == 0 && receive(&message)) {
        goes_on = pass(&message, &starter);
        wipe(message.bytes, message.size);
    }
    for (;;)
        (void)call(SYS_exit_group, 0, 0, 0, 0, 0);
}

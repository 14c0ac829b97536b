/*
 * life MODE-FILE: what an application has to bear, and what mustn't reach it, over tests/fake_server. The library is built with
 * PATIENCE=2 and with ROOT the file that says what the server does.
 */
#define _GNU_SOURCE
#include <errno.h>
#include <fcntl.h>
#include <linux/filter.h>
#include <linux/seccomp.h>
#include <pthread.h>
#include <signal.h>
#include <stdarg.h>
#include <stdbool.h>
#include <stddef.h>
#include <stdio.h>
#include <stdlib.h>
#include <string.h>
#include <sys/prctl.h>
#include <sys/resource.h>
#include <sys/syscall.h>
#include <sys/time.h>
#include <sys/wait.h>
#include <time.h>
#include <unistd.h>

#include <security/pam_appl.h>

int pam_get_data(const pam_handle_t *handle, const char *name, const void **data);
int pam_set_data(pam_handle_t *handle, const char *name, void *data, void (*cleanup)(pam_handle_t *, void *, int));

static const char *mode_file;
static volatile sig_atomic_t signals;
static int passed, failed, conversations;
static char logged[4096];
static int conv_code = PAM_SUCCESS;
static const char *conv_reply;

static void count(int number)
{
    (void)number;
    signals++;
}

static void keep(const char *format, va_list arguments)
{
    size_t used = strlen(logged);
    vsnprintf(logged + used, sizeof logged - used, format, arguments);
    strncat(logged, "\n", sizeof logged - strlen(logged) - 1);
}

/* In place of the system's log: the function, and the one that _FORTIFY_SOURCE makes of it. */
void syslog(int priority, const char *format, ...)
{
    va_list arguments;
    (void)priority;
    va_start(arguments, format);
    keep(format, arguments);
    va_end(arguments);
}

void __syslog_chk(int priority, int flag, const char *format, ...);
void __syslog_chk(int priority, int flag, const char *format, ...)
{
    va_list arguments;
    (void)priority, (void)flag;
    va_start(arguments, format);
    keep(format, arguments);
    va_end(arguments);
}

static int talk(int n, const struct pam_message **messages, struct pam_response **responses, void *data)
{
    (void)n, (void)data;
    conversations++;
    *responses = calloc(1, sizeof **responses);
    if (messages[0]->msg_style > PAM_PROMPT_ECHO_ON)
        return PAM_SUCCESS;
    if (conv_code != PAM_SUCCESS) {
        free(*responses);
        *responses = NULL;
    } else if (conv_reply != NULL) {
        (*responses)->resp = strdup(conv_reply);
    }
    return conv_code;
}

static const struct pam_conv conv = { talk, NULL };

static void is(const char *what, long got, long wanted)
{
    if (got == wanted)
        passed++;
    else
        failed++;
    if (got != wanted)
        printf("life: %s: %ld, not %ld\n", what, got, wanted);
    fflush(stdout);
}

static void has_logged(const char *text)
{
    is(text, strstr(logged, text) != NULL, 1);
    if (strstr(logged, text) == NULL)
        printf("life: logged: %s", logged);
    logged[0] = '\0';
}

static void mode(const char *text)
{
    FILE *file = fopen(mode_file, "w");
    if (file == NULL || fputs(text, file) < 0 || fclose(file) != 0)
        exit(2);
}

static int socket_of(void)
{
    char path[64], name[256];
    for (int fd = 0; fd < 64; fd++) {
        snprintf(path, sizeof path, "/proc/self/fd/%d", fd);
        ssize_t size = readlink(path, name, sizeof name - 1);
        if (size > 0 && strncmp(name, "socket:", 7) == 0)
            return fd;
    }
    return -1;
}

static double now(void)
{
    struct timespec time;
    clock_gettime(CLOCK_MONOTONIC, &time);
    return (double)time.tv_sec + (double)time.tv_nsec / 1e9;
}

static void *churn(void *stop)
{
    while (!*(volatile int *)stop)
        free(malloc(1 + (size_t)rand() % 5000));
    return NULL;
}

static int start(pam_handle_t **handle)
{
    return pam_start("t", "joe", &conv, handle);
}

/* The status of a copy of this process in which the test was run. */
static int in_a_copy(bool (*test)(void))
{
    int status = -1;
    pid_t child = fork();
    if (child == 0)
        _exit(test() ? 0 : 1);
    waitpid(child, &status, 0);
    return status;
}

static void answers(const char *what, const char *answer, int wanted)
{
    pam_handle_t *handle = NULL;
    char text[2048];
    snprintf(text, sizeof text, "says %s", answer);
    mode(text);
    is(what, start(&handle), PAM_SUCCESS);
    is(what, pam_authenticate(handle, 0), wanted);
    pam_end(handle, 0);
}

/* SUCCESS for its exact line alone. */
static void test_answers(void)
{
    answers("the line alone", "1 authenticate SUCCESS 0\n", PAM_SUCCESS);
    answers("after a line of the report", "1 line 1 pam_x SUCCESS 0\n1 authenticate SUCCESS 0\n", PAM_SUCCESS);
    answers("no newline", "1 authenticate SUCCESS 0", PAM_ABORT);
    answers("a space more", "1 authenticate SUCCESS 0 \n", PAM_ABORT);
    answers("a digit more", "1 authenticate SUCCESS 00\n", PAM_ABORT);
    answers("a word more", "1 authenticate SUCCESS 0 pending setcred\n", PAM_ABORT);
    answers("a code's name alone", "1 authenticate SUCCESS\n", PAM_ABORT);
    answers("another name with 0", "1 authenticate AUTH_ERR 0\n", PAM_ABORT);
    answers("another number", "1 authenticate SUCCESS 1\n", PAM_OPEN_ERR);
    answers("in small letters", "1 authenticate success 0\n", PAM_ABORT);
    answers("another transaction", "2 authenticate SUCCESS 0\n", PAM_ABORT);
    answers("another call", "1 setcred SUCCESS 0\n", PAM_ABORT);
    answers("nothing", "", PAM_ABORT);
    answers("twice", "1 authenticate SUCCESS 0\n1 authenticate SUCCESS 0\n", PAM_ABORT);
    answers("after another result", "1 authenticate AUTH_ERR 7\n1 authenticate SUCCESS 0\n", PAM_ABORT);
    answers("before another result", "1 authenticate SUCCESS 0\n1 authenticate AUTH_ERR 7\n", PAM_ABORT);
    answers("after an exchange", "1 asks 1\n1 authenticate SUCCESS 0\n", PAM_ABORT);
    answers("a code too large", "1 authenticate ODD 32\n", PAM_ABORT);
    answers("more prompts than a conversation has", "1 asks 4294967295\n", PAM_ABORT);
    answers("fewer prompts than it says", "1 say 4 x\n1 asks 1\n", PAM_ABORT);
    answers("more prompts than it says", "1 say 1 x\n1 asks 0\n", PAM_ABORT);
    answers("a style that there isn't", "1 say 5 x\n1 asks 0\n", PAM_ABORT);
    answers("a wait that is none", "1 wait AUTH_ERR 7 x 0\n1 authenticate AUTH_ERR 7\n", PAM_ABORT);
    answers("pending", "1 authenticate ABORT 26 pending setcred\n", PAM_ABORT);
}

static void test_faults(void)
{
    static const struct { const char *mode; int start, authenticate, end; } faults[] = {
        { "ends-at-once", PAM_ABORT, 0, 0 }, { "noise", PAM_ABORT, 0, 0 }, { "huge", PAM_ABORT, 0, 0 },
        { "dies-after", PAM_SUCCESS, PAM_ABORT, PAM_ABORT }, { "dies-in-call", PAM_SUCCESS, PAM_ABORT, PAM_ABORT },
        { "half", PAM_SUCCESS, PAM_ABORT, PAM_ABORT }, { "dies-at-end", PAM_SUCCESS, PAM_SUCCESS, PAM_ABORT },
        { "dawdles", PAM_SUCCESS, PAM_ABORT, PAM_ABORT }, { "asks-and-dies", PAM_SUCCESS, PAM_ABORT, PAM_ABORT },
    };
    pam_handle_t *handle = NULL;

    signals = 0;
    for (size_t i = 0; i < sizeof faults / sizeof *faults; i++) {
        mode(faults[i].mode);
        is(faults[i].mode, start(&handle), faults[i].start);
        if (faults[i].start != PAM_SUCCESS)
            continue;
        is(faults[i].mode, pam_authenticate(handle, 0), faults[i].authenticate);
        is(faults[i].mode, pam_end(handle, 0), faults[i].end);
    }
    is("no signal came of any", signals, 0);
}

/* The processes whose one argument is the file of the mode: this process isn't their parent, so it looks for them. */
static pid_t server_pid(void)
{
    char command[4096];
    pid_t found = -1;
    snprintf(command, sizeof command, "for p in /proc/[0-9]*; do tr '\\0' ' ' <$p/cmdline 2>/dev/null"
        " | grep -q 'fake_server %s' && echo ${p#/proc/}; done 2>/dev/null | head -n 1", mode_file);
    FILE *pipe = popen(command, "r");
    if (pipe == NULL || fscanf(pipe, "%d", &found) != 1)
        found = -1;
    if (pipe != NULL)
        pclose(pipe);
    return found;
}

static void test_stopped(void)
{
    pam_handle_t *handle = NULL;
    struct itimerval often = { { 0, 50000 }, { 0, 50000 } }, never = { { 0, 0 }, { 0, 0 } };

    mode("stops");
    signal(SIGCHLD, SIG_DFL);
    is("stops: start", start(&handle), PAM_SUCCESS);
    signals = 0;
    signal(SIGALRM, count);
    setitimer(ITIMER_REAL, &often, NULL); /* signals that come meanwhile make it no longer */
    double began = now();
    is("a process that is stopped", pam_authenticate(handle, 0), PAM_ABORT);
    double took = now() - began;
    setitimer(ITIMER_REAL, &never, NULL);
    is("is given up after two seconds", took > 1.9 && took < 8, 1);
    is("signals reach the application meanwhile", signals > 5, 1);
    began = now();
    is("and never waited for again", pam_authenticate(handle, 0), PAM_ABORT);
    is("at once", now() - began < 1, 1);
    pid_t server = server_pid();
    is("the process is still there", server > 0, 1);
    if (server > 0)
        kill(server, SIGKILL);
    pam_end(handle, 0);
    signal(SIGCHLD, count);
}

static void test_conversation(void)
{
    char longest[600];
    pam_handle_t *handle = NULL;

    memset(longest, 'x', sizeof longest);
    longest[513] = '\0';
    mode("asks");
    is("asks: start", start(&handle), PAM_SUCCESS);
    conv_reply = "secret";
    conversations = 0;
    is("the reply is sent", pam_authenticate(handle, 0), PAM_SUCCESS);
    is("a text, and a prompt", conversations, 2);
    conv_reply = "wrong";
    is("another reply", pam_authenticate(handle, 0), PAM_AUTH_ERR);
    conv_reply = NULL;
    is("no reply", pam_authenticate(handle, 0), PAM_CONV_ERR);
    conv_reply = longest;
    is("a reply of 513 bytes is no reply", pam_authenticate(handle, 0), PAM_CONV_ERR);
    longest[512] = '\0';
    is("one of 512 bytes is sent", pam_authenticate(handle, 0), PAM_AUTH_ERR);
    conv_code = PAM_CONV_ERR;
    is("the conversation fails", pam_authenticate(handle, 0), PAM_CONV_ERR);
    conv_code = PAM_ABORT;
    is("with another code", pam_authenticate(handle, 0), PAM_CONV_ERR);
    conv_code = PAM_CONV_AGAIN;
    is("or has no reply yet", pam_authenticate(handle, 0), PAM_INCOMPLETE);
    conv_code = PAM_SUCCESS;
    conv_reply = "secret";
    is("and then has one", pam_authenticate(handle, 0), PAM_SUCCESS);
    is("end", pam_end(handle, 0), PAM_SUCCESS);
}

static unsigned delayed;
static void delay(int code, unsigned micros, void *data)
{
    (void)code, (void)data;
    delayed = micros;
}

static void test_log_and_wait(void)
{
    pam_handle_t *handle = NULL;
    union { void (*function)(int, unsigned, void *); const void *item; } own = { delay };

    logged[0] = '\0';
    answers("a failure", "1 line 2 pam_unix AUTH_ERR 7\n1 authenticate AUTH_ERR 7\n", PAM_AUTH_ERR);
    char wanted[256], login[64] = "";
    if (getlogin_r(login, sizeof login) != 0)
        login[0] = '\0';
    snprintf(wanted, sizeof wanted, "pam_unix(t:auth): authentication failure; logname=%s uid=%u euid=%u tty=pts/1 ruser= "
        "rhost=host?root: fine  user=joe\n", login, (unsigned)getuid(), (unsigned)geteuid());
    has_logged(wanted);
    answers("nobody's name", "1 line 2 pam_unix USER_UNKNOWN 10\n1 authenticate USER_UNKNOWN 10\n", PAM_USER_UNKNOWN);
    is("isn't written", strstr(logged, "joe") == NULL, 1);
    has_logged("pam_unix(t:auth): check pass; user unknown\npam_unix(t:auth): authentication failure; ");
    answers("no hash", "1 line 3 pam_unix AUTHINFO_UNAVAIL 9\n1 authenticate AUTHINFO_UNAVAIL 9\n", PAM_AUTHINFO_UNAVAIL);
    has_logged("pamsess(t:auth): line 3, module pam_unix: AUTHINFO_UNAVAIL\n");
    answers("nothing of SUCCESS", "1 line 3 pam_unix SUCCESS 0\n1 authenticate SUCCESS 0\n", PAM_SUCCESS);
    is("is logged", logged[0], '\0');
    mode("ends-at-once");
    is("no answer", start(&handle), PAM_ABORT);
    has_logged("pamsess(t:process): the process is gone\n");

    double began = now();
    answers("a wait", "1 wait AUTH_ERR 7 300000 300000\n1 authenticate AUTH_ERR 7\n", PAM_AUTH_ERR);
    is("is waited", now() - began >= 0.3, 1);
    struct itimerval often = { { 0, 200000 }, { 0, 200000 } }, never = { { 0, 0 }, { 0, 0 } };
    signal(SIGALRM, count);
    setitimer(ITIMER_REAL, &often, NULL);
    began = now();
    answers("a wait of ten seconds", "1 wait AUTH_ERR 7 10000000 10000000\n1 authenticate AUTH_ERR 7\n", PAM_AUTH_ERR);
    is("is over at a signal", now() - began < 8, 1);
    setitimer(ITIMER_REAL, &never, NULL);
    mode("says 1 wait AUTH_ERR 7 3000000 3000000\n1 authenticate AUTH_ERR 7\n");
    is("start", start(&handle), PAM_SUCCESS);
    is("a delay function", pam_set_item(handle, PAM_FAIL_DELAY, own.item), PAM_SUCCESS);
    began = now();
    is("is called", pam_authenticate(handle, 0), PAM_AUTH_ERR);
    is("with what was asked for", delayed, 3000000);
    is("in place of the wait", now() - began < 3, 1);
    is("end", pam_end(handle, 0), PAM_SUCCESS);
}

static void test_texts(void)
{
    char text[600];
    const void *item = NULL;
    pam_handle_t *handle = NULL;

    mode("good");
    memset(text, 'x', sizeof text);
    text[513] = '\0';
    is("a user of 513 bytes", pam_start("t", text, &conv, &handle), PAM_BUF_ERR);
    is("a service with a slash", pam_start("a/b", NULL, &conv, &handle), PAM_SYSTEM_ERR);
    is("start without a user", pam_start("t", NULL, &conv, &handle), PAM_SUCCESS);
    is("putenv of 513 bytes", pam_putenv(handle, text), PAM_BUF_ERR);
    is("an item of 513 bytes", pam_set_item(handle, PAM_TTY, text), PAM_BUF_ERR);
    is("a name of 513 bytes", pam_getenv(handle, text) == NULL, 1);
    text[512] = '\0';
    is("an item of 512 bytes", pam_set_item(handle, PAM_TTY, text), PAM_SUCCESS);
    is("putenv of 512 bytes", pam_putenv(handle, text), PAM_SUCCESS);
    is("an item that is unset", pam_get_item(handle, PAM_RUSER, &item) == PAM_SUCCESS && item == NULL, 1);
    is("no such item", pam_get_item(handle, 99, &item), PAM_BAD_ITEM);
    is("an item that is no text", pam_set_item(handle, PAM_XAUTHDATA, text), PAM_BAD_ITEM);
    is("no conversation", pam_set_item(handle, PAM_CONV, NULL), PAM_PERM_DENIED);
    is("the conversation", pam_get_item(handle, PAM_CONV, &item) == PAM_SUCCESS && ((const struct pam_conv *)item)->conv == talk, 1);
    const void *user = NULL, *again = NULL;
    is("a value", pam_get_item(handle, PAM_USER, &user) == PAM_SUCCESS && strcmp(user, "joe") == 0, 1);
    is("stays where it is", pam_get_item(handle, PAM_USER, &again) == PAM_SUCCESS && user == again, 1);
    char **list = pam_getenvlist(handle);
    is("the environment", list != NULL && strcmp(list[0], "A=b\nc") == 0 && strcmp(list[1], "B=") == 0 && list[2] == NULL, 1);
    for (char **at = list; at != NULL && *at != NULL; at++)
        free(*at);
    free(list);
    is("data is for modules", pam_get_data(handle, "x", &item), PAM_SYSTEM_ERR);
    is("and can't be set", pam_set_data(handle, "x", text, NULL), PAM_SYSTEM_ERR);
    is("end", pam_end(handle, 0), PAM_SUCCESS);
}

static bool without_descriptors(void)
{
    pam_handle_t *handle = NULL;
    close(0), close(1), close(2);
    return start(&handle) == PAM_SUCCESS && pam_authenticate(handle, 0) == PAM_SUCCESS && fcntl(0, F_GETFD) < 0
        && fcntl(1, F_GETFD) < 0 && fcntl(2, F_GETFD) < 0 && pam_end(handle, 0) == PAM_SUCCESS;
}

static bool without_files(void)
{
    pam_handle_t *handle = NULL;
    struct rlimit none;
    getrlimit(RLIMIT_FSIZE, &none);
    none.rlim_cur = 0;
    setrlimit(RLIMIT_FSIZE, &none);
    signal(SIGTERM, SIG_IGN);
    return start(&handle) == PAM_SUCCESS && pam_end(handle, 0) == PAM_SUCCESS;
}

/* A user who may not raise a limit again gets no process, for each limit that a process needs. */
static bool with_low_limits(void)
{
    static const struct { int resource; rlim_t low; const char *name; } limits[] = {
        { RLIMIT_NOFILE, 63, "RLIMIT_NOFILE" }, { RLIMIT_STACK, 1 << 19, "RLIMIT_STACK" }, { RLIMIT_FSIZE, 0, "RLIMIT_FSIZE" },
#ifndef __SANITIZE_ADDRESS__ /* which takes terabytes */
        { RLIMIT_AS, 60 << 20, "RLIMIT_AS" }, { RLIMIT_DATA, 30 << 20, "RLIMIT_DATA" },
#endif
        { RLIMIT_CPU, 599, "RLIMIT_CPU" },
    };
    for (size_t i = 0; i < sizeof limits / sizeof *limits; i++) {
        pid_t child = fork();
        int status = -1;
        if (child == 0) {
            struct rlimit low = { limits[i].low, limits[i].low };
            pam_handle_t *handle = NULL;
            if (setrlimit(limits[i].resource, &low) != 0 || setresuid(65534, 65534, 65534) != 0)
                _exit(2);
            logged[0] = '\0';
            _exit(start(&handle) == PAM_ABORT && handle == NULL && strstr(logged, limits[i].name) != NULL ? 0 : 1);
        }
        waitpid(child, &status, 0);
        if (status != 0)
            printf("life: %s isn't refused: %d\n", limits[i].name, status);
        if (status != 0)
            return false;
    }
    return true;
}

static bool with_few_descriptors(void)
{
    pam_handle_t *handle = NULL;
    struct rlimit few = { 4, 4 };
    setrlimit(RLIMIT_NOFILE, &few);
    return start(&handle) == PAM_ABORT && handle == NULL;
}

/* The server's environment, no descriptor beyond 2, a session that isn't this one's, a pipe and a socket as its 0 and 1, and no core
   file, or one in a pipe. */
static bool is_as_it_should_be(pam_handle_t *handle)
{
    const char *told = pam_getenv(handle, "X");
    return told != NULL && strcmp(told, "LC_ALL=C,,0,1,1,1") == 0;
}

/* A kernel, or a container's filter, that doesn't have close_range(2). */
static bool without_close_range(void)
{
    struct sock_filter filter[] = {
        BPF_STMT(BPF_LD | BPF_W | BPF_ABS, offsetof(struct seccomp_data, nr)),
        BPF_JUMP(BPF_JMP | BPF_JEQ | BPF_K, SYS_close_range, 0, 1),
        BPF_STMT(BPF_RET | BPF_K, SECCOMP_RET_ERRNO | ENOSYS),
        BPF_STMT(BPF_RET | BPF_K, SECCOMP_RET_ALLOW),
    };
    const struct sock_fprog program = { sizeof filter / sizeof *filter, filter };
    pam_handle_t *handle = NULL;

    for (int i = 0; i < 8; i++)
        (void)dup(0); /* an application's own, which aren't closed over exec */
    if (prctl(PR_SET_NO_NEW_PRIVS, 1, 0, 0, 0) != 0 || prctl(PR_SET_SECCOMP, SECCOMP_MODE_FILTER, &program) != 0)
        return false;
    return close_range(3, ~0U, 0) != 0 && start(&handle) == PAM_SUCCESS && is_as_it_should_be(handle)
        && pam_end(handle, 0) == PAM_SUCCESS;
}

static void test_descriptors(const char *foreign)
{
    pam_handle_t *handle = NULL;

    mode("good");
    is("start", start(&handle), PAM_SUCCESS);
    int fd = socket_of(), file = open(foreign, O_RDWR | O_CREAT | O_TRUNC | O_CLOEXEC, 0600);
    is("the descriptor is closed over exec", fcntl(fd, F_GETFD) & FD_CLOEXEC, FD_CLOEXEC);
    dup2(file, fd); /* an application that closes all that it doesn't know, and opens others */
    is("another file in its place", pam_authenticate(handle, 0), PAM_ABORT);
    is("has nothing in it", lseek(fd, 0, SEEK_END), 0);
    pam_end(handle, 0);
    is("and stays open", fcntl(fd, F_GETFD) >= 0, 1);
    close(fd);
    close(file);
    is("0, 1 and 2 were closed", in_a_copy(without_descriptors), 0);
    is("no file may be written", in_a_copy(without_files), 0);
    is("no descriptors: refused", in_a_copy(with_few_descriptors), 0);
    is("there is no close_range", in_a_copy(without_close_range), 0);
    if (getuid() == 0)
        is("limits that can't be raised: refused", in_a_copy(with_low_limits), 0);
}

static void test_life(void)
{
    pam_handle_t *handle = NULL;
    const void *item = NULL;
    int status;

    signal(SIGCHLD, count);
    signal(SIGPIPE, count);
    mode("good");
    is("start", start(&handle), PAM_SUCCESS);
    is("no signal came", signals, 0);
    is("wait finds no child", waitpid(-1, &status, WNOHANG) == -1 && errno == ECHILD, 1);
    is("authenticate", pam_authenticate(handle, 0), PAM_SUCCESS);
    setenv("SECRET", "x", 1);
    is("the process is as it should be", is_as_it_should_be(handle), 1);
    pid_t child = fork(); /* as sshd does: a copy authenticates, this process goes on */
    if (child == 0) {
        int code = pam_authenticate(handle, 0) == PAM_SUCCESS ? 0 : 1;
        pam_end(handle, PAM_DATA_SILENT);
        _exit(code);
    }
    waitpid(child, &status, 0);
    is("a copy made a call", status, 0);
    is("and this process goes on", pam_get_item(handle, PAM_USER, &item), PAM_SUCCESS);
    is("end", pam_end(handle, 0), PAM_SUCCESS);
}

static volatile int ends;
static void end_of_thread(void *unused)
{
    (void)unused;
    ends++;
}

static void *told_to_end(void *unused)
{
    pam_handle_t *handle = NULL;
    (void)unused;
    pthread_cleanup_push(end_of_thread, NULL);
    pthread_cancel(pthread_self());
    (void)start(&handle);
    pthread_testcancel();
    pthread_cleanup_pop(0);
    return NULL;
}

static bool thread_told_to_end(void)
{
    pthread_t thread;
    return pthread_create(&thread, NULL, told_to_end, NULL) == 0 && pthread_join(thread, NULL) == 0 && ends == 1;
}

static void test_threads(void)
{
    volatile int stop = 0;
    pthread_t threads[4];
    pam_handle_t *handle = NULL;
    int good = 0;

    mode("good");
    for (int i = 0; i < 4; i++)
        pthread_create(&threads[i], NULL, churn, (void *)&stop);
    for (int i = 0; i < 300; i++)
        good += start(&handle) == PAM_SUCCESS && pam_authenticate(handle, 0) == PAM_SUCCESS && pam_end(handle, 0) == PAM_SUCCESS;
    stop = 1;
    for (int i = 0; i < 4; i++)
        pthread_join(threads[i], NULL);
    is("300 starts beside four threads that allocate", good, 300);
    is("no descriptor is left", socket_of(), -1);
    is("a thread that was told to end before its start ends once", in_a_copy(thread_told_to_end), 0);
}

int main(int words, char **word)
{
    char foreign[4096];

    if (words != 2)
        return 2;
    mode_file = word[1];
    snprintf(foreign, sizeof foreign, "%s.other", mode_file);
    test_life();
    test_descriptors(foreign);
    test_faults();
    test_stopped();
    test_answers();
    test_conversation();
    test_log_and_wait();
    test_texts();
    test_threads();
    printf("life: %d passed, %d failed\n", passed, failed);
    return failed != 0;
}

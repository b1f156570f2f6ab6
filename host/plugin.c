/* A plug-in in a process of its own (document 02, request 08). It writes one request to its standard output and exits. The host takes that
 * from a pipe, part by part as it comes, says the end, and ends the plug-in where it must. docs/HOST.md, point 19, says why each step is as
 * it is. */
#include "../programs/words.h"
#include "host.h"
#include "station_text.h"
#include <ctype.h>
#include <errno.h>
#include <fcntl.h>
#include <poll.h>
#include <signal.h>
#include <stdio.h>
#include <stdlib.h>
#include <string.h>
#include <sys/prctl.h>
#include <sys/syscall.h>
#include <sys/wait.h>
#include <time.h>
#include <unistd.h>

enum { PAUSE = 2, GRACE = 1000 };       /* ms between two looks at a process; ms in which those that were killed are gone */

/* A clock that nobody sets: with the time of day a limit could end early, or never. */
static long ms(void) {
    struct timespec t;
    clock_gettime(CLOCK_MONOTONIC, &t);
    return (long)t.tv_sec * 1000 + t.tv_nsec / 1000000;
}

static void rest(void) {
    const struct timespec pause = { 0, PAUSE * 1000000L };
    nanosleep(&pause, NULL);
}

/* ---- The process. */

/* A signal that ends the host ends the plug-in first: in a group of its own it does not hear what is typed at the terminal. */
static volatile sig_atomic_t running;   /* the plug-in's process group; 0 for none */

/* The group, and the plug-in itself, which may have left it. Until it is reaped its number is nobody else's. */
static void kill_plugin(pid_t process) {
    kill(-process, SIGKILL);
    kill(process, SIGKILL);
}

static void take_along(int number) {
    if (running) kill_plugin((pid_t)running);
    signal(number, SIG_DFL);
    raise(number);
}

/* What is ignored, as it is in a job of a script, stays ignored. */
static void on_signals(void (*handler)(int)) {
    static const int ends[] = { SIGHUP, SIGINT, SIGQUIT, SIGTERM };
    for (size_t i = 0; i < sizeof ends / sizeof ends[0]; i++) {
        struct sigaction now;
        if (sigaction(ends[i], NULL, &now) == 0 && now.sa_handler != SIG_IGN) signal(ends[i], handler);
    }
}

/* Every descriptor from 3 on: also what somebody opened without O_CLOEXEC, and what the host itself was started with. */
static void close_the_rest(void) {
#ifdef SYS_close_range
    if (syscall(SYS_close_range, 3U, ~0U, 0U) == 0) return;
#endif
    for (long fd = sysconf(_SC_OPEN_MAX); fd-- > 3; ) close((int)fd);
}

/* Starts the command, and answers the end of the pipe that the host reads. */
static int start(const char *command) {
    int nothing, ends[2];
    sigset_t all, before;

    /* A host may have been started without one of the descriptors 0 to 2. They are filled here, so that the pipe gets none of them. */
    do nothing = open("/dev/null", O_RDWR | O_CLOEXEC); while (nothing >= 0 && nothing <= STDERR_FILENO);

    /* Closed on exec from their first moment on: what another thread starts meanwhile would hold the pipe open, and its end never come.
     * The host's end does not block: by /proc/self/fd a plug-in can open it too, and read it empty between the host's poll and read. */
    if (nothing < 0 || pipe2(ends, O_CLOEXEC) || fcntl(ends[0], F_SETFL, O_NONBLOCK)) {
        perror(program);
        exit(MISUSE);
    }
    signal(SIGCHLD, SIG_DFL);                                   /* where that is ignored, how a child ended is lost */
    prctl(PR_SET_CHILD_SUBREAPER, 1L);                          /* the children that a plug-in leaves behind come to the host */

    /* No signal between the fork and the moment from which take_along knows the group. */
    sigfillset(&all);
    sigprocmask(SIG_BLOCK, &all, &before);
    pid_t process = fork();
    if (process == 0) {                                         /* nothing here but what signal-safety(7) allows */
        setpgid(0, 0);
        if (dup2(nothing, STDIN_FILENO) < 0 || dup2(ends[1], STDOUT_FILENO) < 0 || dup2(nothing, STDERR_FILENO) < 0) _exit(127);
        close_the_rest();
        sigprocmask(SIG_SETMASK, &before, NULL);
        execl("/bin/sh", "sh", "-c", "--", command, (char *)NULL);
        _exit(127);
    }
    if (process > 0) {
        setpgid(process, process);                              /* on both sides, for either may be first */
        running = process;
    }
    int why = errno;
    sigprocmask(SIG_SETMASK, &before, NULL);
    close(nothing);
    close(ends[1]);                                             /* with a writer in the host itself the end would never come */
    if (process > 0) return ends[0];
    errno = why;
    perror(program);
    exit(MISUSE);
}

/* Has it exited by this time? It is not reaped yet. */
static int has_exited(pid_t process, long until) {
    for (;;) {
        siginfo_t how = { .si_pid = 0 };
        if (waitid(P_PID, (id_t)process, &how, WEXITED | WNOHANG | WNOWAIT) == 0 && how.si_pid == process) return 1;
        if (ms() >= until) return 0;
        rest();
    }
}

/* Kills whoever is left, the plug-in or a child that it forgot, and reaps them. How the plug-in ended, as waitpid has it. One that cannot
 * be killed, for it waits for a disk or has become another user's, is left: it must not hold the host up. */
static int finish(pid_t process) {
    int status = 0;
    long until = ms() + GRACE;
    kill_plugin(process);
    running = 0;
    while (waitpid(process, &status, WNOHANG) == 0 && ms() < until) rest();
    while (waitpid(-process, NULL, WNOHANG) >= 0 && ms() < until) rest();
    return status;
}

/* ---- Its request. */

enum { COUNT_OF_VIDEO = 7 };

/* What came, for a person to see; the library keeps what it needs in the pipe. One byte more than the longest request has is enough. */
struct written { uint8_t bytes[STATION_REQUEST + 1]; size_t length; unsigned parts; int ended; };

/* The parts as they come, until there is an answer or the time is up. Whatever else goes wrong here, the clock ends it. */
static struct station_piped take_parts(int from, long until, uint8_t taken[STATION_PIPE], struct written *w) {
    struct station_piped a = { 0, 0, 0 };
    for (long left; !a.answered && !a.refusal && w->length < sizeof w->bytes && (left = until - ms()) > 0; ) {
        struct pollfd readable = { from, POLLIN, 0 };
        if (poll(&readable, 1, (int)left) <= 0) continue;       /* the time, or a signal */
        uint8_t *part = w->bytes + w->length;
        ssize_t n = read(from, part, sizeof w->bytes - w->length);
        if (n < 0) continue;                                    /* EINTR, or EAGAIN: nothing is there after all */
        if (n == 0) {                                           /* no writer is left, and only the host sees that */
            w->ended = 1;
            return station_pipe_end(taken, STATION_PIPE);
        }
        w->length += (size_t)n;
        w->parts++;
        a = station_pipe_take(taken, STATION_PIPE, part, (size_t)n);
    }
    return a;
}

static void tell(const struct written *w, const char *how) {
    printf("plug-in:     %s%u byte%s in %u part%s, and it %s\n", w->length == sizeof w->bytes ? "the first " : "", (unsigned)w->length,
           w->length == 1 ? "" : "s", w->parts, w->parts == 1 ? "" : "s", how);
}

/* What a shell means by the status of a command that it could not run, or that a signal ended. */
static const char *by_a_shell(int status, char *text, size_t room) {
    if (status == 126) return ", by which a shell says that it may not be executed";
    if (status == 127) return ", by which a shell says that there is no such command";
    if (status <= 128 || status > 128 + SIGRTMAX) return "";
    snprintf(text, room, ", by which a shell says: signal %d (%s)", status - 128, strsignal(status - 128));
    return text;
}

/* The mistakes that are made most, told by the bytes themselves. */
static const char *likely(uint32_t refusal, const struct written *w) {
    if (!w->length) return "It wrote nothing: was its output flushed before it exited?\n";
    if (refusal == STATION_COUNT_NOT_ALLOWED && isxdigit(w->bytes[0]))
        return "Its first byte is a hex digit: were digits written in place of the bytes themselves?\n";
    if (refusal == STATION_COUNT_NOT_ALLOWED && w->bytes[0] == COUNT_OF_VIDEO)
        return "Its first byte is the count of the video section: a request of before version 6.0.0? It gets 00 in front.\n";
    if (refusal == STATION_BYTES_AFTER && w->bytes[w->length - 1] == '\n')
        return "Its last byte is 0a: an end of line that was not meant?\n";
    return "";
}

/* No number of the library's: the host's own word. */
static int no_request(int status, const char *why) {
    fflush(stdout);
    fprintf(stderr, "%s: no request: the plug-in %s. Nothing was planned, and the chip was not touched\n", program, why);
    return status;
}

int request_of_plugin(const char *command, long wait, struct request *asked) {
    uint8_t taken[STATION_PIPE] = { 0 };                        /* zeros are a fresh one; it is for this request and no other */
    struct written w = { .length = 0 };
    char why[240], text[80];
    long until = ms() + wait;                                   /* for all of it: a byte now and then buys no time */
    on_signals(take_along);
    int from = start(command);
    pid_t process = (pid_t)running;
    struct station_piped a = take_parts(from, until, taken, &w);
    int exited = w.ended && has_exited(process, until);
    close(from);
    int status = finish(process);
    on_signals(SIG_DFL);

    if (!w.ended && a.refusal) tell(&w, "was killed, for no later byte changes the answer");
    else if (!exited) {
        tell(&w, "was killed");
        snprintf(why, sizeof why, "%s within %ld ms%s (--wait gives more time)",
                 w.ended ? "ended its output, but did not exit" : "did not end its output", wait,
                 w.ended ? "" : ", or a child of its own held that open");
        return no_request(LATE, why);
    } else if (status) {                                        /* by its own word, or by a crash: not to be believed */
        tell(&w, "failed");
        if (WIFSIGNALED(status)) snprintf(why, sizeof why, "was ended by signal %d (%s)", WTERMSIG(status), strsignal(WTERMSIG(status)));
        else snprintf(why, sizeof why, "exited with status %d%s; 2>FILE in COMMAND keeps what it said", WEXITSTATUS(status),
                      by_a_shell(WEXITSTATUS(status), text, sizeof text));
        return no_request(FAILED, why);
    } else tell(&w, "ended by itself");

    if (a.refusal) {
        if (w.length) show_request("it wrote:", w.bytes, w.length);
        printf("refused %u: %s\n", (unsigned)a.refusal, station_text(a.refusal));
        printf("%sHow it is mended: docs/REQUEST.md, \"When it is refused\" and \"From a process of its own\"%s.\n"
               "Nothing was planned, and the chip was not touched\n",
               likely(a.refusal, &w), w.length ? "; tools/request --explain BYTES says more of these bytes" : "");
        return REFUSED;
    }
    memcpy(asked->bytes, taken, a.count);
    asked->length = a.count;
    return ACCEPTED;
}

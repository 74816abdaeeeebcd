/* The run of the program, in which the recorder's library writes the log. */
#include <errno.h>
#include <signal.h>
#include <stdlib.h>
#include <string.h>
#include <sys/personality.h>
#include <sys/stat.h>
#include <sys/wait.h>
#include <time.h>
#include <unistd.h>

#include "writer.h"

enum { QUIET_SECONDS = 5, GRACE_SECONDS = 5, TICK = 20000000 };

static volatile sig_atomic_t asked;

static void on_signal(int signal) { asked = signal; }

static void set_number(const char *name, uint64_t number) {
    char text[32];
    snprintf(text, sizeof text, "%lu", number);
    setenv(name, text, 1);
}

/* Where the output goes to a file it goes to one now, too, as writing to a file keeps nobody waiting. */
static void hide_output(void) {
    for (int descriptor = 1; descriptor <= 2; descriptor++) {
        struct stat status;
        bool is_file = !fstat(descriptor, &status) && S_ISREG(status.st_mode);
        FILE *file = is_file ? tmpfile() : fopen("/dev/null", "w");
        if (file) dup2(fileno(file), descriptor);
    }
}

_Noreturn static void become(const struct words *words, const char *log) {
    if (personality(ADDR_NO_RANDOMIZE) == -1)
        tell("addresses are drawn at random, as the system does not let this be changed: a run may not repeat by its seed");
    setenv("GPRECORD_LOG", log, 1);
    set_number("GPRECORD_SEED", words->seed);
    set_number("GPRECORD_SWITCH", words->switch_every);
    set_number("GPRECORD_LOG_MIB", words->log_mib);
    setenv("GPRECORD_STEPS", words->steps, 1);
    setenv("GPRECORD_COUNTS", words->counts ? "1" : "0", 1); /* of one length, so that the stack lies where it lay */
    if (words->script) setenv("GPRECORD_SCRIPT", words->script, 1);
    if (words->quiet) hide_output();
    execvp(words->program[0], words->program);
    tell("%s does not run: %s", words->program[0], strerror(errno));
    _exit(127);
}

static struct log watched;

static double seconds_since(const struct timespec *begin) {
    struct timespec now;
    clock_gettime(CLOCK_MONOTONIC, &now);
    return (double)(now.tv_sec - begin->tv_sec) + (double)(now.tv_nsec - begin->tv_nsec) / 1e9;
}

/* Tells, once, that nothing was logged for a while, and in which calls threads are. */
static void watch(const struct words *words) {
    static uint64_t used;
    static struct timespec since;
    static bool told;
    if (told || words->limit || !watched.head) return;
    if (!since.tv_sec || watched.head->used != used) {
        used = watched.head->used;
        clock_gettime(CLOCK_MONOTONIC, &since);
    }
    if (seconds_since(&since) < QUIET_SECONDS) return;
    told = true;
    tell("nothing was recorded for %d seconds; a signal ends the program, and what it did until then is recorded", QUIET_SECONDS);
}

/* What changes while the program does something: in a script its moves, and before it, or without one, what is logged. */
static uint64_t signs_of_life(void) {
    const struct log_head *head = watched.head;
    const struct follow *follow = &head->follow;
    if (follow->begun || follow->left) return UINT64_MAX - follow->begun - follow->done - 2 * follow->over - 4 * follow->left;
    return head->used + head->private_accesses + head->early_accesses + head->paused_accesses + head->repeated_reads;
}

/* Whether the program has done nothing for as long as it may. */
static bool is_overdue(const struct words *words) {
    static uint64_t signs;
    static struct timespec since;
    if (!words->limit || !watched.head) return false;
    if (!since.tv_sec || signs_of_life() != signs) {
        signs = signs_of_life();
        clock_gettime(CLOCK_MONOTONIC, &since);
    }
    return seconds_since(&since) >= (double)words->limit;
}

/* The program may be a script that started the one that is recorded. */
static void end_program(pid_t program, int signal) {
    kill(program, signal);
    if (watched.head && watched.head->process && watched.head->process != (uint32_t)program)
        kill((pid_t)watched.head->process, signal);
}

struct ending run_program(const struct words *words, const char *log) {
    struct ending ending = {true, 0, 0};
    watched = (struct log){0};
    struct sigaction action = {.sa_handler = on_signal};
    sigaction(SIGINT, &action, NULL);
    sigaction(SIGTERM, &action, NULL);
    sigaction(SIGHUP, &action, NULL);
    struct timespec begin, asked_at = {0, 0}, tick = {0, TICK};
    clock_gettime(CLOCK_MONOTONIC, &begin);
    pid_t program = fork();
    if (program < 0) fail(STATUS_NOTHING, "no process can be made: %s", strerror(errno));
    if (!program) become(words, log);
    int status;
    while (waitpid(program, &status, WNOHANG) == 0) {
        nanosleep(&tick, NULL);
        if (!watched.head) map_log(log, &watched);
        watch(words);
        if (is_overdue(words)) end_program(program, SIGKILL);
        if (words->seconds && !asked && seconds_since(&begin) >= (double)words->seconds) asked = SIGTERM;
        if (asked && !asked_at.tv_sec) {
            clock_gettime(CLOCK_MONOTONIC, &asked_at);
            kill(program, asked);
        }
        if (asked_at.tv_sec && seconds_since(&asked_at) > GRACE_SECONDS) kill(program, SIGKILL);
    }
    if (WIFSIGNALED(status)) ending.signal = WTERMSIG(status);
    if (WIFEXITED(status)) ending.status = WEXITSTATUS(status);
    ending.started = ending.status != 127;
    return ending;
}

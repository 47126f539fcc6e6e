/* Runs programs in turn, many times, and prints a line for each: the least and the median time of a run by the clock on
   the wall, both of the processor's, all in nanoseconds; the most memory that a run had, in bytes; the number of runs.

       runs MILLISECONDS LEAST MOST STATUS OUT \; PROGRAM WORDS.. \; PROGRAM WORDS..

   Each program is run LEAST times at least, and MOST times at most; between these it leaves the turns when its runs
   have taken MILLISECONDS. OUT is removed before each run. What the programs print goes nowhere. A program that ends
   with a status above STATUS is not run again, and its line is `failed`. The memory is that of one more run, which is
   stopped before each call that may give memory back, and before it ends, and whose pages are counted there. What the
   system keeps as a process's most is not taken: it is off by up to 32 pages for each processor, and what `wait4` tells
   of a child counts what its parent had when it was started. Where it cannot be told, the line is `failed` too. */
#include <fcntl.h>
#include <signal.h>
#include <spawn.h>
#include <stdint.h>
#include <stdio.h>
#include <stdlib.h>
#include <string.h>
#include <sys/resource.h>
#include <sys/syscall.h>
#include <sys/wait.h>
#include <time.h>
#include <unistd.h>

#include "watched.h"

enum { PROGRAMS = 8, RUNS = 10000 };

typedef struct program {
    char **words;
    int has_failed;
    int runs;
    int64_t total;
    int64_t times[RUNS];
    int64_t processor[RUNS];
} program;

extern char **environ;

static program programs[PROGRAMS];

static int64_t now(void)
{
    struct timespec time;
    clock_gettime(CLOCK_MONOTONIC, &time);
    return (int64_t)time.tv_sec * 1000000000 + time.tv_nsec;
}

static int64_t nanoseconds(struct timeval time)
{
    return ((int64_t)time.tv_sec * 1000000 + time.tv_usec) * 1000;
}

/* Runs a program once, and adds what it took. Returns whether it ended with no status above the worst. */
static int run(program *one, const char *out, int worst, posix_spawn_file_actions_t *actions)
{
    struct rusage used;
    int status;
    pid_t child;
    remove(out);
    int64_t begin = now();
    if (posix_spawn(&child, one->words[0], actions, NULL, one->words, environ) != 0)
        return 0;
    if (wait4(child, &status, 0, &used) != child || !WIFEXITED(status) || WEXITSTATUS(status) > worst)
        return 0;
    int64_t took = now() - begin;
    one->processor[one->runs] = nanoseconds(used.ru_utime) + nanoseconds(used.ru_stime);
    one->times[one->runs++] = took;
    one->total += took;
    return 1;
}

/* The memory of a process, in bytes, as the system counts its pages. */
static long memory_of(pid_t process)
{
    char path[64], line[256];
    long held = 0;
    snprintf(path, sizeof path, "/proc/%d/smaps_rollup", (int)process);
    FILE *counted = fopen(path, "r");
    while (counted != NULL && held == 0 && fgets(line, sizeof line, counted) != NULL)
        sscanf(line, "Rss: %ld kB", &held);
    if (counted != NULL)
        fclose(counted);
    return held * 1024;
}

/* Whether a process was stopped before a call that may give memory back. */
static int gives_back(pid_t process)
{
    struct __ptrace_syscall_info stop;
    if (ptrace(PTRACE_GET_SYSCALL_INFO, process, (void *)sizeof stop, &stop) <= 0
        || stop.op != PTRACE_SYSCALL_INFO_ENTRY)
        return 0;
    switch (stop.entry.nr) {
    case SYS_brk:
    case SYS_madvise:
    case SYS_mmap:
    case SYS_mremap:
    case SYS_munmap:
        return 1;
    }
    return 0;
}

/* Runs a program once more, and returns the most memory that it had, in bytes, or 0 where that cannot be told. */
static long peak_of(program *one, const char *out)
{
    long most = 0;
    int status, signal = 0;
    remove(out);
    pid_t child = watched(one->words);
    if (child < 0 || waitpid(child, &status, 0) != child || !WIFSTOPPED(status))
        return 0;
    long stops = PTRACE_O_TRACESYSGOOD | PTRACE_O_TRACEEXIT | PTRACE_O_EXITKILL;
    ptrace(PTRACE_SETOPTIONS, child, NULL, (void *)stops);
    while (ptrace(PTRACE_SYSCALL, child, NULL, (void *)(long)signal) == 0 && waitpid(child, &status, 0) == child
           && WIFSTOPPED(status)) {
        int is_call = WSTOPSIG(status) == (SIGTRAP | 0x80);
        int is_end = status >> 8 == (SIGTRAP | PTRACE_EVENT_EXIT << 8);
        long held = is_end || (is_call && gives_back(child)) ? memory_of(child) : 0;
        most = held > most ? held : most;
        signal = is_call || is_end ? 0 : WSTOPSIG(status);
    }
    return most;
}

/* Reads the programs behind the words of this one. Returns how many there are. */
static int programs_of(char **words)
{
    int count = 0;
    for (; *words != NULL; words++)
        if (strcmp(*words, ";") == 0) {
            *words = NULL;
            if (count == PROGRAMS)
                return 0;
            programs[count++].words = words + 1;
        }
    return count;
}

static int ascending(const void *first, const void *second)
{
    int64_t one = *(const int64_t *)first, other = *(const int64_t *)second;
    return (one > other) - (one < other);
}

/* Prints the least and the median of some times. */
static void say_times(int64_t *times, int runs)
{
    qsort(times, (size_t)runs, sizeof times[0], ascending);
    printf("%lld %lld ", (long long)times[0], (long long)times[runs / 2]);
}

static void say(program *one, const char *out)
{
    long peak = one->has_failed ? 0 : peak_of(one, out);
    if (peak == 0) {
        puts("failed");
        return;
    }
    say_times(one->times, one->runs);
    say_times(one->processor, one->runs);
    printf("%ld %d\n", peak, one->runs);
}

int main(int given, char **words)
{
    posix_spawn_file_actions_t actions;
    if (given < 8 || strtol(words[2], NULL, 10) < 1)
        return 1;
    int64_t enough = atoll(words[1]) * 1000000;
    int least = atoi(words[2]), most = atoi(words[3]), worst = atoi(words[4]), ran = 1;
    int count = programs_of(words + 6);
    most = most < RUNS ? most : RUNS;
    posix_spawn_file_actions_init(&actions);
    posix_spawn_file_actions_addopen(&actions, 0, "/dev/null", O_RDONLY, 0);
    posix_spawn_file_actions_addopen(&actions, 1, "/dev/null", O_WRONLY, 0);
    posix_spawn_file_actions_addopen(&actions, 2, "/dev/null", O_WRONLY, 0);
    while (ran) {
        ran = 0;
        for (int at = 0; at < count; at++) {
            program *one = &programs[at];
            if (one->has_failed || one->runs >= most || (one->runs >= least && one->total >= enough))
                continue;
            one->has_failed = !run(one, words[5], worst, &actions);
            ran = 1;
        }
    }
    for (int at = 0; at < count; at++)
        say(&programs[at], words[5]);
    return 0;
}

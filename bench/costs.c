/* What a call costs in the running kernel under a filter of each compiler, as a ratio to what getppid costs
 * without one: a call that is always allowed (since Linux 5.11 no filter runs for it), one that
 * is allowed by a condition, and one that is denied. All on one processor, medians of interleaved rounds. */
#include "rules.h"
#include "times.h"
#include <linux/filter.h>
#include <sched.h>
#include <sys/prctl.h>
#include <sys/syscall.h>
#include <sys/wait.h>

enum { KINDS = 3, ROUNDS = 21, CALLS = 20000, NONE = -1 };

/* getppid, personality with the value that asks for it, and add_key, which RuntimeDefault denies. */
static const long numbers[KINDS] = {SYS_getppid, SYS_personality, SYS_add_key};
static const long arguments[KINDS] = {0, 0xffffffff, 0};

/* Nanoseconds of a call of each kind in a child, under the filter if there is one. */
static void measure(const uint8_t *filter, size_t length, double *took) {
    pid_t child = fork();
    if (child == 0) {
        struct sock_fprog program = {.len = length / 8, .filter = (struct sock_filter *)filter};
        if (filter && (prctl(PR_SET_NO_NEW_PRIVS, 1, 0, 0, 0) ||
                       syscall(SYS_seccomp, SECCOMP_SET_MODE_FILTER, 0, &program)))
            _exit(1);
        for (int kind = 0; kind < KINDS; kind++) {
            double before = now_ns(CLOCK_MONOTONIC);
            for (int i = 0; i < CALLS; i++)
                syscall(numbers[kind], arguments[kind], 0, 0, 0, 0);
            took[kind] = (now_ns(CLOCK_MONOTONIC) - before) / CALLS;
        }
        _exit(0);
    }
    int ended = 1;
    if (child < 0 || waitpid(child, &ended, 0) < 0 || ended != 0) {
        fprintf(stderr, "a child under a filter ended with %d\n", ended);
        exit(1);
    }
}

/* The names of a drawn list, and those that the measured child calls. */
static void drawn_with_ours(void) {
    static const int ours[] = {SYS_getppid, SYS_exit_group, SYS_clock_gettime};
    drawn_names(200, 20, EQUALITIES);
    int kept = 0;
    for (int i = 0; i < rule_count; i++) {
        int is_ours = rules[i].nr == SYS_personality || rules[i].nr == SYS_add_key;
        for (int k = 0; k < 3; k++)
            is_ours |= (int)rules[i].nr == ours[k];
        if (!is_ours)
            rules[kept++] = rules[i];
    }
    rule_count = kept;
    for (int k = 0; k < 3; k++)
        add(ours[k], SECCOMP_RET_ALLOW);
    when(add(SYS_personality, SECCOMP_RET_ALLOW), 0, EQ, 0xffffffff, 0);
}

static void rows(const char *profile) {
    static uint8_t filters[COMPILERS][32768];
    static double samples[COMPILERS + 1][KINDS][ROUNDS], medians[COMPILERS + 1][KINDS];
    size_t lengths[COMPILERS];
    double *took =
        mmap(NULL, sizeof(double) * KINDS, PROT_READ | PROT_WRITE, MAP_SHARED | MAP_ANONYMOUS, -1, 0);
    if (took == MAP_FAILED)
        exit(1);
    text_len = json(text);
    for (int how = 0; how < COMPILERS; how++)
        lengths[how] = compiled(filters[how], how);
    for (int round = 0; round < ROUNDS; round++)
        for (int how = NONE; how < COMPILERS; how++) {
            if (how != NONE && lengths[how] == 0)
                continue;
            measure(how == NONE ? NULL : filters[how], how == NONE ? 0 : lengths[how], took);
            for (int kind = 0; kind < KINDS; kind++)
                samples[how + 1][kind][round] = took[kind];
        }
    munmap(took, sizeof(double) * KINDS);
    for (int how = NONE; how < COMPILERS; how++)
        for (int kind = 0; kind < KINDS; kind++)
            medians[how + 1][kind] = median(samples[how + 1][kind], ROUNDS);
    double plain = medians[0][0];
    for (int how = 0; how < COMPILERS; how++)
        if (lengths[how] > 0)
            printf("| %s | %s | %.2f | %.2f | %.2f |\n", profile, compilers[how], medians[how + 1][0] / plain,
                   medians[how + 1][1] / plain, medians[how + 1][2] / plain);
}

int main(void) {
    cpu_set_t one;
    CPU_ZERO(&one);
    CPU_SET(sched_getcpu(), &one);
    if (sched_setaffinity(0, sizeof one, &one))
        perror("sched_setaffinity");
    printf("| profile | compiler | always allowed | allowed by a condition | denied |\n"
           "|---|---|---|---|---|\n");
    runtime_default();
    rows("RuntimeDefault");
    drawn_with_ours();
    rows("a drawn list");
    return 0;
}

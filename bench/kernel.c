/* What the running kernel does beside what the library says: kernel COUNT. Draws profiles, conditions
 * included, compiles and installs each in a child, makes calls that do no harm with drawn arguments, and
 * compares what came of each with the value that motchidu_run_all gives. Ends with 1 where any differs. */
#include <errno.h>
#include <linux/audit.h>
#include <linux/filter.h>
#include <linux/seccomp.h>
#include <motchidu.h>
#include <signal.h>
#include <stdio.h>
#include <stdlib.h>
#include <string.h>
#include <sys/mman.h>
#include <sys/prctl.h>
#include <sys/syscall.h>
#include <sys/wait.h>
#include <unistd.h>

enum { CALLS = 96, KILLS = 2, MAX_ERRNO = 4095 };

static const struct {
    const char *name;
    uint32_t nr;
} harmless[] = {{"getpid", 39}, {"getuid", 102}, {"getgid", 104}, {"geteuid", 107}, {"getegid", 108},
                {"getppid", 110}, {"getpgrp", 111}, {"gettid", 186}, {"sched_yield", 24}};
enum { HARMLESS = sizeof harmless / sizeof *harmless };

/* What a child saw of a call, in memory that it shares with its parent. */
struct seen {
    long result;   /* what the call returned */
    int trapped;   /* whether SIGSYS came, and with which data */
    int data;
};

static uint64_t state = 0x9e3779b97f4a7c15;

static uint64_t draw(void) { /* xorshift64* */
    state ^= state >> 12, state ^= state << 25, state ^= state >> 27;
    return state * 0x2545f4914f6cdd1d;
}

static uint64_t below(uint64_t n) { return (draw() >> 16) % n; }

/* Numbers at the edges of 32 and 64 bits, near each other, and anything. */
static uint64_t number(void) {
    static const uint64_t edges[] = {0, 1, 8, 0x7fffffff, 0x80000000, 0xffffffff, 0x100000000, 0x100000001,
                                     0x8000000000000000, 0xffffffff00000000, 0xfffffffffffffffe, UINT64_MAX};
    switch (below(4)) {
    case 0: return draw();
    case 1: return below(4) << 32 | below(4);
    default: return edges[below(sizeof edges / sizeof *edges)];
    }
}

static const char *action(unsigned *data) {
    static const char *const names[] = {"ALLOW", "LOG",  "ERRNO", "ERRNO",
                                        "TRACE", "TRAP", "KILL",  "KILL_PROCESS"};
    uint64_t at = below(sizeof names / sizeof *names);
    *data = at == 2 || at == 3 ? below(MAX_ERRNO + 1) : at == 4 ? below(65536) : 0;
    return names[at];
}

static size_t put_action(char *to, size_t room, const char *field, const char *errno_field) {
    unsigned data;
    const char *name = action(&data);
    int n = snprintf(to, room, "\"%s\":\"SCMP_ACT_%s\"", field, name);
    if (!strcmp(name, "ERRNO") || !strcmp(name, "TRACE"))
        n += snprintf(to + n, room - n, ",\"%s\":%u", errno_field, data);
    return n;
}

/* A profile that lets a process end and return from a signal, and decides on harmless calls at random. */
static size_t profile(char *to, size_t room) {
    static const char *const ops[] = {"NE", "LT", "LE", "EQ", "GE", "GT", "MASKED_EQ"};
    size_t n = snprintf(to, room, "{");
    n += put_action(to + n, room - n, "defaultAction", "defaultErrnoRet");
    n += snprintf(
        to + n, room - n,
        ",\"syscalls\":[{\"names\":[\"exit_group\",\"rt_sigreturn\"],\"action\":\"SCMP_ACT_ALLOW\"}");
    for (uint64_t entries = 1 + below(12); entries > 0; entries--) {
        n += snprintf(to + n, room - n, ",{\"names\":[");
        for (uint64_t names = 1 + below(3), first = names; names > 0; names--)
            n += snprintf(to + n, room - n, "%s\"%s\"", names == first ? "" : ",",
                          harmless[below(HARMLESS)].name);
        n += snprintf(to + n, room - n, "],");
        n += put_action(to + n, room - n, "action", "errnoRet");
        n += snprintf(to + n, room - n, ",\"args\":[");
        int first = 1;
        for (int index = 0; index < 6; index++)
            if (below(4) == 0) {
                n += snprintf(to + n, room - n,
                              "%s{\"index\":%d,\"op\":\"SCMP_CMP_%s\",\"value\":%llu,\"valueTwo\":%llu}",
                              first ? "" : ",", index, ops[below(7)], (unsigned long long)number(),
                              (unsigned long long)number());
                first = 0;
            }
        n += snprintf(to + n, room - n, "]}");
    }
    return n + snprintf(to + n, room - n, "]}");
}

static struct seen *volatile here;

static void on_sigsys(int signal, siginfo_t *info, void *context) {
    (void)signal, (void)context;
    here->trapped = 1;
    here->data = info->si_errno;
}

static long call_of(const struct seccomp_data *call) {
    register long r10 __asm__("r10") = (long)call->args[3], r8 __asm__("r8") = (long)call->args[4],
                      r9 __asm__("r9") = (long)call->args[5];
    long result;
    __asm__ volatile("syscall"
                     : "=a"(result)
                     : "a"((long)call->nr), "D"(call->args[0]), "S"(call->args[1]), "d"(call->args[2]),
                       "r"(r10), "r"(r8), "r"(r9)
                     : "rcx", "r11", "memory");
    return result;
}

/* Makes the calls in a child under the filter, and says how the child ended. */
static int made_by_child(const uint8_t *filter, size_t length, const struct seccomp_data *calls, int count,
                         struct seen *seen, long *plain) {
    pid_t child = fork();
    if (child == 0) {
        struct sock_fprog program = {.len = length / 8, .filter = (struct sock_filter *)filter};
        struct sigaction trap = {.sa_sigaction = on_sigsys, .sa_flags = SA_SIGINFO};
        sigaction(SIGSYS, &trap, NULL);
        for (int i = 0; i < HARMLESS; i++)
            plain[i] = syscall(harmless[i].nr);
        if (prctl(PR_SET_NO_NEW_PRIVS, 1, 0, 0, 0) ||
            syscall(SYS_seccomp, SECCOMP_SET_MODE_FILTER, 0, &program))
            _exit(77);
        for (int i = 0; i < count; i++) {
            here = &seen[i];
            seen[i].result = call_of(&calls[i]);
        }
        _exit(0);
    }
    int ended = -1;
    if (child < 0 || waitpid(child, &ended, 0) < 0)
        exit(2);
    return ended;
}

static long plain_of(uint32_t nr, const long *plain) {
    for (int i = 0; i < HARMLESS; i++)
        if (harmless[i].nr == nr)
            return plain[i];
    return -ENOSYS;
}

/* Whether what was seen of a call is what the value says. */
static int is_as_said(uint32_t value, const struct seccomp_data *call, const struct seen *seen,
                      const long *plain) {
    long data = value & 0xffff;
    switch (value & 0xffff0000) {
    case SECCOMP_RET_ALLOW:
    case SECCOMP_RET_LOG: return !seen->trapped && seen->result == plain_of(call->nr, plain);
    case SECCOMP_RET_ERRNO: return !seen->trapped && seen->result == -(data < MAX_ERRNO ? data : MAX_ERRNO);
    case SECCOMP_RET_TRACE: return !seen->trapped && seen->result == -ENOSYS;
    case SECCOMP_RET_TRAP: return seen->trapped && seen->data == data;
    default: return 0;
    }
}

static int kills(uint32_t value) {
    return (value & 0xffff0000) == SECCOMP_RET_KILL_PROCESS ||
           (value & 0xffff0000) == SECCOMP_RET_KILL_THREAD;
}

int main(int argc, char **argv) {
    long count = argc == 2 ? atol(argv[1]) : 0, compared = 0, differ = 0, profiles = 0;
    if (count <= 0) {
        fprintf(stderr, "usage: kernel COUNT\n");
        return 2;
    }
    struct seen *seen =
        mmap(NULL, CALLS * sizeof *seen, PROT_READ | PROT_WRITE, MAP_SHARED | MAP_ANONYMOUS, -1, 0);
    long *plain =
        mmap(NULL, HARMLESS * sizeof *plain, PROT_READ | PROT_WRITE, MAP_SHARED | MAP_ANONYMOUS, -1, 0);
    while (compared < count) {
        static char text[262144];
        static uint8_t filter[32768] __attribute__((aligned(8)));
        size_t length = 0;
        uint32_t status =
            motchidu_compile((uint8_t *)text, profile(text, sizeof text), filter, sizeof filter, &length);
        if (status != MOTCHIDU_ACCEPTED) {
            printf("refused %u: %s\n", status, text);
            return 1;
        }
        profiles++;
        struct seccomp_data calls[CALLS] = {0}, living[CALLS], killed[CALLS];
        uint32_t values[CALLS], steps[CALLS], said[CALLS];
        for (int i = 0; i < CALLS; i++) {
            calls[i].nr =
                below(32) ? harmless[below(HARMLESS)].nr : 0x40000000 | harmless[below(HARMLESS)].nr;
            calls[i].arch = AUDIT_ARCH_X86_64;
            for (int a = 0; a < 6; a++)
                calls[i].args[a] = number();
        }
        status =
            motchidu_run_all(filter, length, (uint8_t *)calls, sizeof calls, values, CALLS, steps, CALLS);
        if (status != MOTCHIDU_ACCEPTED)
            return 1;
        int lives = 0, dies = 0;
        for (int i = 0; i < CALLS; i++)
            if (kills(values[i]))
                killed[dies++] = calls[i];
            else
                said[lives] = values[i], living[lives++] = calls[i];
        memset(seen, 0, CALLS * sizeof *seen);
        int ended = made_by_child(filter, length, living, lives, seen, plain);
        if (WIFEXITED(ended) && WEXITSTATUS(ended) == 77) {
            printf("kernel: skipped, this kernel takes no filter\n");
            return 0;
        }
        for (int i = 0; i < lives; i++, compared++)
            if (ended != 0 || !is_as_said(said[i], &living[i], &seen[i], plain)) {
                differ++;
                printf("nr %u: said %08x, came to %ld%s\n%s\n", living[i].nr, said[i], seen[i].result,
                       seen[i].trapped ? ", trapped" : "", text);
            }
        for (int i = 0; i < dies && i < KILLS; i++, compared++) {
            memset(seen, 0, sizeof *seen);
            ended = made_by_child(filter, length, &killed[i], 1, seen, plain);
            if (!WIFSIGNALED(ended) || WTERMSIG(ended) != SIGSYS) {
                differ++;
                printf("nr %u: said to be killed, and was not\n%s\n", killed[i].nr, text);
            }
        }
    }
    printf("kernel: %ld profiles, %ld calls compared, %ld differ\n", profiles, compared, differ);
    return differ != 0;
}

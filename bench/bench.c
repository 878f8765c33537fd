/*
 * Times the machine of libmotchidu beside two other interpreters of classic BPF, on the same filters and
 * calls: nanoseconds for each executed instruction. docs/BENCHMARKS.md has the table of one machine;
 * only the ratios carry over to another.
 *
 * The rounds are interleaved, so that what slows one slows all, and a time is the median of its rounds.
 * Time is the processor's for this process. motchidu_run_all's has reading and verifying in it, once for
 * each list of calls.
 */
#include "others.h"
#include "times.h"
#include <linux/audit.h>
#include <linux/seccomp.h>
#include <motchidu.h>
#include <stdio.h>
#include <stdlib.h>
#include <string.h>

enum { CALLS = 4096, ROUNDS = 21, MOST_INSNS = 4096 };
static const double ROUND_NS = 80e6;

static struct seccomp_data calls[CALLS];
static uint8_t swapped[CALLS][64];
static uint32_t values[CALLS], steps[CALLS], plain_values[CALLS], plain_steps[CALLS], pcap_values[CALLS];

/* A filter in the making. */
static struct sock_filter code[MOST_INSNS];
static size_t len;

static void put(uint16_t op, uint8_t jt, uint8_t jf, uint32_t k) {
    code[len++] = (struct sock_filter){op, jt, jf, k};
}

static uint64_t next_random(void) {
    static uint64_t state = 0x9e3779b97f4a7c15;
    state ^= state << 13;
    state ^= state >> 7;
    return state ^= state << 17;
}

/* What is timed: each runs the filter on all calls. */
static void by_motchidu(void) {
    if (motchidu_run_all((const uint8_t *)code, len * sizeof *code, (const uint8_t *)calls, sizeof calls,
                         values, CALLS, steps, CALLS) != MOTCHIDU_ACCEPTED)
        abort();
}

static void by_plain(void) {
    for (size_t i = 0; i < CALLS; i++)
        plain_values[i] = plain_run(code, &calls[i], &plain_steps[i]);
}

static void by_pcap(void) {
    for (size_t i = 0; i < CALLS; i++)
        pcap_values[i] = pcap_run(code, swapped[i]);
}

static double time_of(void (*run)(void), long times) {
    double start = now_ns(CLOCK_PROCESS_CPUTIME_ID);
    for (long i = 0; i < times; i++)
        run();
    return now_ns(CLOCK_PROCESS_CPUTIME_ID) - start;
}

/* How often a run is made, so that a round takes long enough. */
static long times_of(void (*run)(void)) {
    long times = 1;
    double took;
    run();
    while ((took = time_of(run, times)) < ROUND_NS / 4)
        times *= 2;
    return (long)((double)times * ROUND_NS / took) + 1;
}

/* Values and steps have to agree on every call before anything is timed. */
static void compare(const char *name) {
    by_motchidu();
    by_plain();
    if (memcmp(values, plain_values, sizeof values) || memcmp(steps, plain_steps, sizeof steps)) {
        printf("%s: values or steps differ\n", name);
        exit(1);
    }
    if (has_pcap)
        by_pcap();
    if (has_pcap && memcmp(values, pcap_values, sizeof values)) {
        printf("%s: libpcap's values differ\n", name);
        exit(1);
    }
}

static void bench(const char *name) {
    compare(name);
    double executed = 0;
    for (size_t i = 0; i < CALLS; i++)
        executed += steps[i];

    void (*const runs[3])(void) = {by_motchidu, by_plain, by_pcap};
    int count = has_pcap ? 3 : 2;
    long times[3] = {0};
    double took[3][ROUNDS], ns[3] = {0};
    for (int r = 0; r < count; r++)
        times[r] = times_of(runs[r]);
    for (int round = 0; round < ROUNDS; round++)
        for (int r = 0; r < count; r++)
            took[r][round] = time_of(runs[r], times[r]) / ((double)times[r] * executed);
    for (int r = 0; r < count; r++)
        ns[r] = median(took[r], ROUNDS);

    printf("%-34s %6zu %9.0f %10.3f %10.3f", name, len, executed / CALLS, ns[0], ns[1]);
    if (has_pcap)
        printf(" %10.3f %12.2f %12.2f\n", ns[2], ns[0] / ns[1], ns[0] / ns[2]);
    else
        printf(" %10s %12.2f %12s\n", "-", ns[0] / ns[1], "-");
    fflush(stdout);
    len = 0;
}

/* 4,096 instructions, each of which is executed on each call. */
static void straight_line(void) {
    while (len + 4 < MOST_INSNS) {
        put(BPF_LD | BPF_W | BPF_ABS, 0, 0, 4 * (uint32_t)(len / 4 % 16));
        put(BPF_ALU | BPF_ADD | BPF_K, 0, 0, (uint32_t)next_random());
        put(BPF_MISC | BPF_TAX, 0, 0, 0);
        put(BPF_ALU | BPF_XOR | BPF_K, 0, 0, (uint32_t)next_random());
    }
    while (len < MOST_INSNS - 1)
        put(BPF_ALU | BPF_XOR | BPF_X, 0, 0, 0);
    put(BPF_RET | BPF_A, 0, 0, 0);
}

/* What a profile of 300 calls becomes, one compare after the other. */
static void chain_of_compares(void) {
    put(BPF_LD | BPF_W | BPF_ABS, 0, 0, 4);
    put(BPF_JMP | BPF_JEQ | BPF_K, 1, 0, AUDIT_ARCH_X86_64);
    put(BPF_RET | BPF_K, 0, 0, SECCOMP_RET_KILL_PROCESS);
    put(BPF_LD | BPF_W | BPF_ABS, 0, 0, 0);
    for (uint32_t nr = 0; nr < 300; nr++) {
        put(BPF_JMP | BPF_JEQ | BPF_K, 0, 1, nr);
        put(BPF_RET | BPF_K, 0, 0, SECCOMP_RET_ALLOW);
    }
    put(BPF_RET | BPF_K, 0, 0, SECCOMP_RET_ERRNO | 1);
}

/* Sums, products, shifts, scratch words and a few jumps on what came of them. */
static void arithmetic_and_words(void) {
    for (uint32_t i = 0; i < 16; i++) {
        put(BPF_LD | BPF_W | BPF_ABS, 0, 0, 4 * i);
        put(BPF_ST, 0, 0, i);
    }
    for (uint32_t i = 0; i < 64; i++) {
        put(BPF_LDX | BPF_MEM, 0, 0, i % 16);
        put(BPF_LD | BPF_MEM, 0, 0, (5 * i + 3) % 16);
        put(BPF_ALU | BPF_MUL | BPF_K, 0, 0, 2654435761u + i);
        put(BPF_ALU | BPF_ADD | BPF_X, 0, 0, 0);
        put(BPF_ALU | BPF_RSH | BPF_K, 0, 0, 1 + i % 7);
        put(BPF_ALU | BPF_XOR | BPF_X, 0, 0, 0);
        put(BPF_JMP | BPF_JSET | BPF_K, 0, 1, 1u << (i % 5));
        put(BPF_ALU | BPF_SUB | BPF_K, 0, 0, 7 * i);
        put(BPF_ALU | BPF_AND | BPF_K, 0, 0, 0x7fffffff);
        put(BPF_ST, 0, 0, (11 * i + 1) % 16);
        put(BPF_MISC | BPF_TAX, 0, 0, 0);
        put(BPF_STX, 0, 0, (i + 9) % 16);
    }
    put(BPF_RET | BPF_A, 0, 0, 0);
}

int main(void) {
    /* Numbers all over the table and above it, arguments of any value. */
    for (size_t i = 0; i < CALLS; i++) {
        calls[i] =
            (struct seccomp_data){(int)(next_random() % 340), AUDIT_ARCH_X86_64, next_random() >> 16, {0}};
        for (int a = 0; a < 6; a++)
            calls[i].args[a] = next_random() >> (next_random() % 64);
        /* libpcap reads a word highest byte first. */
        for (int b = 0; b < 64; b++)
            swapped[i][b] = ((const uint8_t *)&calls[i])[b ^ 3];
    }
    if (!has_pcap)
        printf("libpcap: skipped, this machine has no pcap/bpf.h (Debian's libpcap-dev)\n");
    printf("%-34s %6s %9s %10s %10s %10s %12s %12s\n", "ns an executed instruction", "insns", "executed",
           "motchidu", "plain C", "libpcap", "to plain C", "to libpcap");
    straight_line();
    bench("straight line");
    chain_of_compares();
    bench("chain of 300 compares");
    arithmetic_and_words();
    bench("arithmetic and scratch words");
    return 0;
}

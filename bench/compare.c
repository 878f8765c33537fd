/* How long comparisons of two filters take: RuntimeDefault beside the same profile by libseccomp's list, by
 * its binary tree and by gVisor, on native calls; two lists of compares of 4,000 instructions in different
 * orders, on every call; and pairs of small filters that have many paths. */
#include "rules.h"
#include "times.h"
#include <linux/filter.h>

enum { ROUNDS = 11, TESTS = 1999, LONG = 2 * TESTS + 2, LISTS = 400 };

static void row(const char *what, const void *first, size_t first_len, const void *second, size_t second_len,
                int native) {
    double times[ROUNDS];
    enum motchidu_status status = MOTCHIDU_ACCEPTED;
    for (int i = 0; i < ROUNDS; i++) {
        uint8_t call[64];
        uint32_t values[2];
        double before = now_ns(CLOCK_PROCESS_CPUTIME_ID);
        status = motchidu_compare(first, first_len, second, second_len, native, UINT64_MAX, call, values);
        times[i] = now_ns(CLOCK_PROCESS_CPUTIME_ID) - before;
    }
    printf("| %s | %zu and %zu | %s | %.1f ms |\n", what, first_len / 8, second_len / 8,
           motchidu_status_text(status), median(times, ROUNDS) / 1e6);
}

/* A list of compares of the call's number: each number has its own errno, whatever the order of its test. */
static void list_in_order(struct sock_filter *filter, const int *numbers) {
    struct sock_filter *at = filter;
    *at++ = (struct sock_filter)BPF_STMT(BPF_LD | BPF_W | BPF_ABS, 0);
    for (int i = 0; i < TESTS; i++) {
        *at++ = (struct sock_filter)BPF_JUMP(BPF_JMP | BPF_JEQ | BPF_K, numbers[i], 0, 1);
        *at++ = (struct sock_filter)BPF_STMT(BPF_RET | BPF_K, SECCOMP_RET_ERRNO | (numbers[i] + 1));
    }
    *at = (struct sock_filter)BPF_STMT(BPF_RET | BPF_K, SECCOMP_RET_ALLOW);
}

static void long_lists(void) {
    static struct sock_filter first[LONG], second[LONG];
    static int numbers[TESTS];
    for (int i = 0; i < TESTS; i++)
        numbers[i] = i;
    list_in_order(first, numbers);
    for (int i = TESTS - 1; i > 0; i--) {
        int other = below(i + 1), number = numbers[i];
        numbers[i] = numbers[other];
        numbers[other] = number;
    }
    list_in_order(second, numbers);
    row("two lists, in different orders", first, sizeof first, second, sizeof second, 0);
}

/* A test for each number of a part of an argument beside none at all, a mask beside its range, and a test of
 * two words beside itself turned around, which is undecided. */
static void small_filters(void) {
    enum { PARTS = 16 };
    static struct sock_filter parts[6 * PARTS + 1];
    struct sock_filter *at = parts;
    for (int i = 0; i < PARTS; i++) {
        *at++ = (struct sock_filter)BPF_STMT(BPF_LD | BPF_W | BPF_ABS, 16);
        *at++ = (struct sock_filter)BPF_JUMP(BPF_JMP | BPF_JEQ | BPF_K, 7, 4, 0);
        *at++ = (struct sock_filter)BPF_STMT(BPF_LD | BPF_W | BPF_ABS, 24);
        *at++ = (struct sock_filter)BPF_STMT(BPF_ALU | BPF_AND | BPF_K, PARTS - 1);
        *at++ = (struct sock_filter)BPF_JUMP(BPF_JMP | BPF_JEQ | BPF_K, i, 0, 1);
        *at++ = (struct sock_filter)BPF_STMT(BPF_RET | BPF_K, SECCOMP_RET_ERRNO | 1);
    }
    *at = (struct sock_filter)BPF_STMT(BPF_RET | BPF_K, SECCOMP_RET_ALLOW);
    static const struct sock_filter whole[] = {
        BPF_STMT(BPF_LD | BPF_W | BPF_ABS, 16), BPF_JUMP(BPF_JMP | BPF_JEQ | BPF_K, 7, 1, 0),
        BPF_STMT(BPF_RET | BPF_K, SECCOMP_RET_ERRNO | 1), BPF_STMT(BPF_RET | BPF_K, SECCOMP_RET_ALLOW)};
    static const struct sock_filter mask[] = {
        BPF_STMT(BPF_LD | BPF_W | BPF_ABS, 24), BPF_STMT(BPF_ALU | BPF_AND | BPF_K, 0xffffff00),
        BPF_JUMP(BPF_JMP | BPF_JEQ | BPF_K, 0x5400, 0, 1),
        BPF_STMT(BPF_RET | BPF_K, SECCOMP_RET_ERRNO | 1), BPF_STMT(BPF_RET | BPF_K, SECCOMP_RET_ALLOW)};
    static const struct sock_filter range[] = {
        BPF_STMT(BPF_LD | BPF_W | BPF_ABS, 24), BPF_JUMP(BPF_JMP | BPF_JGE | BPF_K, 0x5400, 0, 2),
        BPF_JUMP(BPF_JMP | BPF_JGT | BPF_K, 0x54ff, 1, 0),
        BPF_STMT(BPF_RET | BPF_K, SECCOMP_RET_ERRNO | 1), BPF_STMT(BPF_RET | BPF_K, SECCOMP_RET_ALLOW)};
    static const struct sock_filter greater[] = {
        BPF_STMT(BPF_LD | BPF_W | BPF_ABS, 16), BPF_STMT(BPF_MISC | BPF_TAX, 0),
        BPF_STMT(BPF_LD | BPF_W | BPF_ABS, 24), BPF_JUMP(BPF_JMP | BPF_JGT | BPF_X, 0, 0, 1),
        BPF_STMT(BPF_RET | BPF_K, SECCOMP_RET_ERRNO | 1), BPF_STMT(BPF_RET | BPF_K, SECCOMP_RET_ALLOW)};
    static const struct sock_filter turned[] = {
        BPF_STMT(BPF_LD | BPF_W | BPF_ABS, 24), BPF_STMT(BPF_MISC | BPF_TAX, 0),
        BPF_STMT(BPF_LD | BPF_W | BPF_ABS, 16), BPF_JUMP(BPF_JMP | BPF_JGE | BPF_X, 0, 1, 0),
        BPF_STMT(BPF_RET | BPF_K, SECCOMP_RET_ERRNO | 1), BPF_STMT(BPF_RET | BPF_K, SECCOMP_RET_ALLOW)};
    row("each number of a part, and none", parts, sizeof parts, whole, sizeof whole, 0);
    row("no number of a part, and each", whole, sizeof whole, parts, sizeof parts, 0);
    row("a mask and its range", mask, sizeof mask, range, sizeof range, 0);
    row("a test of two words, turned", greater, sizeof greater, turned, sizeof turned, 0);
}

static void drawn_lists(void) {
    static uint8_t ours[32768], theirs[32768];
    int same = 0;
    for (int list = 0; list < LISTS; list++) {
        uint8_t call[64];
        uint32_t values[2];
        drawn_names(100 + below(201), 5 + below(6), list % (ARGUMENTS_TOO + 1));
        text_len = json(text);
        size_t length = compiled(ours, MOTCHIDU), their_length = compiled(theirs, GVISOR);
        if (their_length == 0)
            return;
        same += motchidu_compare(ours, length, theirs, their_length, 1, UINT64_MAX, call, values) ==
                MOTCHIDU_SAME;
    }
    printf("of %d drawn lists gVisor's filter is the same for %d\n", LISTS, same);
}

int main(void) {
    static const char *const whose[COMPILERS] = {"itself", "libseccomp's", "its binary tree's", "gVisor's"};
    static uint8_t ours[32768], theirs[32768];
    printf("| compared | instructions | found | takes |\n|---|---|---|---|\n");
    runtime_default();
    text_len = json(text);
    size_t length = compiled(ours, MOTCHIDU);
    for (int compiler = 0; compiler < COMPILERS; compiler++) {
        size_t their_length = compiled(theirs, compiler);
        char what[64];
        snprintf(what, sizeof what, "RuntimeDefault and %s", whose[compiler]);
        if (their_length > 0)
            row(what, ours, length, theirs, their_length, compiler != MOTCHIDU);
    }
    long_lists();
    small_filters();
    drawn_lists();
    return 0;
}

/* Rules of a profile, and the filter of them by the library, which is given them as JSON, and by libseccomp
 * and gVisor, which are given them one by one: libseccomp by its list and by its binary tree. */
#define _GNU_SOURCE
#include <linux/audit.h>
#include <linux/seccomp.h>
#include <motchidu.h>
#include <stdio.h>
#include <stdlib.h>
#include <string.h>
#include <sys/mman.h>
#include <unistd.h>
#if __has_include(<seccomp.h>)
#include <seccomp.h>
#define HAS_SECCOMP 1
#endif
#include "names.h" /* names: of each call at its number, NULL where there is none */
#include "rule.h"

enum { RULES = 1024, NUMBERS = 451, NAMES = sizeof names / sizeof *names };

/* The rules of a profile, of which the first that holds decides, and what every other call returns. */
static struct rule rules[RULES];
static int rule_count;
static uint32_t other = SECCOMP_RET_ERRNO | 1;

/* -1 if there is no call of this name. */
static inline int number_of(const char *name) {
    for (int nr = 0; nr < NAMES; nr++)
        if (names[nr] && !strcmp(names[nr], name))
            return nr;
    return -1;
}

static inline struct rule *add(int nr, uint32_t value) {
    rules[rule_count] = (struct rule){.nr = nr, .value = value};
    return &rules[rule_count++];
}

static inline void when(struct rule *rule, uint32_t index, enum op op, uint64_t value, uint64_t two) {
    rule->when[rule->conditions++] = (struct condition){index, op, value, two};
}

/* xorshift64*, so that each run draws the same. */
static uint64_t draw_state = 0x9e3779b97f4a7c15;

static inline uint64_t below(uint64_t n) {
    draw_state ^= draw_state >> 12, draw_state ^= draw_state << 25, draw_state ^= draw_state >> 27;
    return (draw_state * 0x2545f4914f6cdd1d >> 16) % n;
}

/* The names that RuntimeDefault does not let through, or not always. */
static const char held_back[] =
    " acct add_key bpf clock_settime clone clone3 create_module delete_module fanotify_init finit_module"
    " fsconfig fsmount fsopen fspick get_kernel_syms get_mempolicy init_module io_uring_enter"
    " io_uring_register io_uring_setup ioperm iopl kcmp kexec_file_load kexec_load keyctl lookup_dcookie"
    " mbind mount move_mount move_pages name_to_handle_at nfsservctl open_by_handle_at open_tree"
    " perf_event_open personality pidfd_getfd pivot_root process_vm_readv process_vm_writev ptrace"
    " query_module quotactl reboot request_key set_mempolicy setdomainname sethostname setns settimeofday"
    " swapoff swapon sysfs syslog umount2 unshare uselib userfaultfd ustat vhangup _sysctl ";

static inline void runtime_default(void) {
    static const uint64_t personas[] = {0, 8, 131072, 131080, 4294967295};
    rule_count = 0;
    add(number_of("clone3"), SECCOMP_RET_ERRNO | 38);
    when(add(number_of("clone"), SECCOMP_RET_ALLOW), 0, MASKED_EQ, 2114060288, 0);
    for (int i = 0; i < 5; i++)
        when(add(number_of("personality"), SECCOMP_RET_ALLOW), 0, EQ, personas[i], 0);
    for (int nr = 0; nr < NAMES; nr++) {
        char word[64];
        snprintf(word, sizeof word, " %s ", names[nr] ? names[nr] : "");
        if (names[nr] && !strstr(held_back, word))
            add(nr, SECCOMP_RET_ALLOW);
    }
}

/* So many of the calls, spread over the table. */
static inline void some_names(int count) {
    int there = 0, taken = 0;
    rule_count = 0;
    for (int nr = 0; nr < NAMES; nr++)
        if (names[nr] && ++there * count / 341 > taken) {
            taken++;
            add(nr, SECCOMP_RET_ALLOW);
        }
}

/* What entries of a drawn list ask for: that the first argument equals a number, or that it compares in any
 * way, or any comparison of any argument, some with an equality of another one. Of the other kinds a number
 * has several entries, which ask for one of some types under the mask ~0xff, for a number of each of two
 * arguments, for a side of a number and more than another one, for a bit that is set or clear, for a number
 * under a mask, for numbers of two of four arguments, or for one number that all of them share and one of
 * their own. */
enum asked {
    EQUALITIES,
    COMPARISONS,
    ARGUMENTS_TOO,
    TYPES,
    PAIRS,
    RANGES,
    BITS,
    MASKS,
    TWO_ARGUMENTS,
    SHARED
};

static inline uint64_t small_or_large(void) {
    switch (below(4)) {
    case 0: return below(1ull << 32);
    case 1: return below(5) << 32 | below(64);
    default: return below(64);
    }
}

static inline void drawn_entry(int nr, enum asked asked) {
    struct rule *rule = add(nr, SECCOMP_RET_ALLOW);
    enum op op = NE + below(MASKED_EQ);
    uint32_t index = asked == COMPARISONS ? 0 : below(ARGUMENTS);
    uint64_t value = small_or_large();
    when(rule, index, op, value, op == MASKED_EQ ? value & small_or_large() : 0);
    if (asked == ARGUMENTS_TOO && below(3) == 0)
        when(rule, (index + 1 + below(ARGUMENTS - 1)) % ARGUMENTS, EQ, small_or_large(), 0);
}

/* An entry of several of a number, no two of which are the same. */
static inline void drawn_of_several(struct rule *rule, enum asked asked, int entry, uint64_t shared) {
    uint64_t bit = 1ull << (3 * entry + below(3)), mask = 1 + below(65535), own = 8 * entry + below(8);
    switch (asked) {
    case TYPES:
        when(rule, 1, MASKED_EQ, ~0xffull, own << 8);
        break;
    case PAIRS:
        when(rule, 0, EQ, below(64), 0);
        when(rule, 1, EQ, own, 0);
        break;
    case RANGES:
        when(rule, 1, below(2) ? LE : GE, below(1000), 0);
        when(rule, 2, GT, 10 * own, 0);
        break;
    case BITS:
        when(rule, 1, MASKED_EQ, bit, below(2) ? bit : 0);
        break;
    case MASKS:
        when(rule, 1, MASKED_EQ, mask, mask & below(65536));
        break;
    case TWO_ARGUMENTS:
        when(rule, below(2), EQ, below(64), 0);
        when(rule, 2 + below(2), EQ, own, 0);
        break;
    default:
        when(rule, 1, EQ, shared, 0);
        when(rule, 2, EQ, own, 0);
    }
}

/* One to four entries of a number, equalities in order of their values, or several of other kinds. */
static inline void drawn_entries(int nr, enum asked asked) {
    if (asked == EQUALITIES) {
        uint64_t value = below(2) ? below(64) : below(1ull << 32);
        for (int values = 1 + below(4); values > 0; values--, value += 2 + below(3))
            when(add(nr, SECCOMP_RET_ALLOW), 0, EQ, value, 0);
        return;
    }
    if (asked > ARGUMENTS_TOO) {
        uint64_t shared = below(64);
        for (int entries = 5 + below(asked == TYPES ? 12 : 8); entries > 0; entries--)
            drawn_of_several(add(nr, SECCOMP_RET_ALLOW), asked, entries, shared);
        return;
    }
    for (int entries = 1 + below(4); entries > 0; entries--)
        drawn_entry(nr, asked);
}

/* A list of so many names, of which some are allowed under conditions. */
static inline void drawn_names(int wanted, int conditional, enum asked asked) {
    int left = 0;
    rule_count = 0;
    for (int nr = 0; nr < NAMES; nr++)
        left += names[nr] != NULL;
    for (int nr = 0; nr < NAMES; nr++) {
        if (!names[nr] || (int)below(left--) >= wanted)
            continue;
        if ((int)below(wanted--) >= conditional) {
            add(nr, SECCOMP_RET_ALLOW);
            continue;
        }
        conditional--;
        drawn_entries(nr, asked);
    }
}

/* The rules in a file that tools/engine_profiles.py writes: what other calls return, and for each rule its
 * name, what it returns, and its conditions. 0 if there is no such file. */
static inline int rules_from(const char *path) {
    FILE *file = fopen(path, "r");
    rule_count = 0;
    if (!file || fscanf(file, "%u", &other) != 1)
        return 0;
    char name[64];
    uint32_t value, conditions;
    while (rule_count < RULES && fscanf(file, "%63s %u %u", name, &value, &conditions) == 3) {
        struct rule rule = {.value = value};
        for (uint32_t i = 0; i < conditions && i < ARGUMENTS; i++) {
            struct condition *at = &rule.when[rule.conditions++];
            if (fscanf(file, "%u %u %lu %lu", &at->index, &at->op, &at->value, &at->two) != 4)
                exit(1);
        }
        int nr = number_of(name);
        if (nr >= 0) {
            rule.nr = nr;
            rules[rule_count++] = rule;
        }
    }
    fclose(file);
    return 1;
}

/* The rules, which allow or fail calls, as a profile in JSON: neighbours without conditions that return the
 * same are one entry. */
static inline size_t json(char *to) {
    static const char *const ops[] = {"", "NE", "LT", "LE", "EQ", "GE", "GT", "MASKED_EQ"};
    char *at = to + sprintf(to, "{\"defaultAction\":\"SCMP_ACT_ERRNO\",\"defaultErrnoRet\":1,\"syscalls\":[");
    for (int i = 0; i < rule_count; i++) {
        const struct rule *rule = &rules[i], *before = rule - 1;
        uint32_t error = rule->value == SECCOMP_RET_ALLOW ? 0 : rule->value & SECCOMP_RET_DATA;
        if (i > 0 && !rule->conditions && !before->conditions && rule->value == before->value) {
            at -= strlen("]}");
            at += sprintf(at, ",\"%s\"]}", names[rule->nr]);
            continue;
        }
        at += sprintf(at, "%s{\"action\":\"SCMP_ACT_%s\",", i ? "," : "", error ? "ERRNO" : "ALLOW");
        if (error)
            at += sprintf(at, "\"errnoRet\":%u,", error);
        for (uint32_t k = 0; k < rule->conditions; k++) {
            const struct condition *cond = &rule->when[k];
            at += sprintf(at, "%s{\"index\":%u,\"op\":\"SCMP_CMP_%s\",\"value\":%lu", k ? "," : "\"args\":[",
                          cond->index, ops[cond->op], cond->value);
            if (cond->op == MASKED_EQ)
                at += sprintf(at, ",\"valueTwo\":%lu", cond->two);
            at += sprintf(at, k + 1 == rule->conditions ? "}]," : "}");
        }
        at += sprintf(at, "\"names\":[\"%s\"]}", names[rule->nr]);
    }
    return at + sprintf(at, "]}") - to;
}

static char text[262144];
static size_t text_len;

static size_t by_motchidu(uint8_t *filter) {
    size_t length = 0;
    uint32_t status = motchidu_compile((uint8_t *)text, text_len, filter, 32768, &length);
    if (status != MOTCHIDU_ACCEPTED) {
        fprintf(stderr, "motchidu_compile: %u\n", status);
        exit(1);
    }
    return length;
}

#ifdef HAS_SECCOMP
static size_t by_seccomp(uint8_t *filter, int tree) {
    scmp_filter_ctx context = seccomp_init(other);
    if (!context || (tree && seccomp_attr_set(context, SCMP_FLTATR_CTL_OPTIMIZE, 2)))
        exit(1);
    for (int i = 0; i < rule_count; i++) {
        const struct rule *rule = &rules[i];
        struct scmp_arg_cmp tests[ARGUMENTS];
        for (uint32_t k = 0; k < rule->conditions; k++)
            tests[k] = (struct scmp_arg_cmp){rule->when[k].index, rule->when[k].op, rule->when[k].value,
                                             rule->when[k].two};
        int status = seccomp_rule_add_array(context, rule->value, rule->nr, rule->conditions, tests);
        if (status) {
            fprintf(stderr, "libseccomp: %s: %s\n", names[rule->nr], strerror(-status));
            exit(1);
        }
    }
    int file = memfd_create("filter", 0);
    if (file < 0 || seccomp_export_bpf(context, file))
        exit(1);
    ssize_t length = pread(file, filter, 32768, 0);
    close(file);
    seccomp_release(context);
    return length;
}
#endif

enum compiler { MOTCHIDU, SECCOMP_LIST, SECCOMP_TREE, GVISOR, COMPILERS };

static const char *const compilers[COMPILERS] = {"motchidu", "libseccomp", "its binary tree", "gVisor"};

/* The filter's length in bytes, 0 where this compiler is not there. */
static size_t compiled(uint8_t *filter, enum compiler compiler) {
    switch (compiler) {
    case MOTCHIDU:
        return by_motchidu(filter);
#ifdef HAS_SECCOMP
    case SECCOMP_LIST:
    case SECCOMP_TREE:
        return by_seccomp(filter, compiler == SECCOMP_TREE);
#endif
#ifdef HAS_GVISOR
    case GVISOR:
        return gvisor_compile(rules, rule_count, other, filter, 32768);
#endif
    default:
        return 0;
    }
}

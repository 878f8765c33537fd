/* A filter, a profile, a pair of filters or a template for each status of motchidu.h, so that the numbers of
 * the header and those of the library can't part. Prints each row that is not as it should be, and ends with
 * their number. */
#include <linux/audit.h>
#include <linux/capability.h>
#include <linux/filter.h>
#include <linux/seccomp.h>
#include <motchidu.h>
#include <stdio.h>
#include <stdlib.h>
#include <string.h>

enum { NOWHERE = 4711 };

/* A program may use any names but the header's, such as this one of the toolchain that makes the library. */
void rattle_alloc(void);
void rattle_alloc(void) {}

/* The linker puts this in the place of malloc, to see what the library returns if memory runs out: it serves
 * this number of requests, or with ALL each. */
enum { ALL = -1 };
static int served = ALL;
void *__real_malloc(size_t size);
void *__wrap_malloc(size_t size) {
    if (served == 0)
        return NULL;
    if (served != ALL)
        served--;
    return __real_malloc(size);
}

#define LOAD_NR BPF_STMT(BPF_LD | BPF_W | BPF_ABS, 0)
#define ALLOW BPF_STMT(BPF_RET | BPF_K, SECCOMP_RET_ALLOW)
#define KILL BPF_STMT(BPF_RET | BPF_K, SECCOMP_RET_KILL_PROCESS)
#define TEST(test, k, jt, jf) BPF_JUMP(BPF_JMP | test | BPF_K, k, jt, jf)

static const struct {
    const char *name;
    enum motchidu_status want;
    size_t at, len;
    struct sock_filter code[4];
} rows[] = {
    {"a load and a return", MOTCHIDU_ACCEPTED, NOWHERE, 16, {LOAD_NR, ALLOW}},
    {"half an instruction", MOTCHIDU_LENGTH, NOWHERE, 12, {LOAD_NR, ALLOW}},
    {"modulo", MOTCHIDU_BAD_CODE, 1, 24, {LOAD_NR, BPF_STMT(BPF_ALU | BPF_MOD | BPF_K, 3), ALLOW}},
    {"nothing", MOTCHIDU_EMPTY, NOWHERE, 0, {{0}}},
    {"a load across two words", MOTCHIDU_BAD_OFFSET, 1, 24,
     {LOAD_NR, BPF_STMT(BPF_LD | BPF_W | BPF_ABS, 2), ALLOW}},
    {"a jump out of the filter", MOTCHIDU_BAD_JUMP, 1, 24, {LOAD_NR, BPF_STMT(BPF_JMP | BPF_JA, 1), ALLOW}},
    {"scratch word 16", MOTCHIDU_BAD_WORD, 0, 16, {BPF_STMT(BPF_ST, 16), ALLOW}},
    {"a shift by 32", MOTCHIDU_BAD_SHIFT, 1, 24, {LOAD_NR, BPF_STMT(BPF_ALU | BPF_LSH | BPF_K, 32), ALLOW}},
    {"a division by 0", MOTCHIDU_ZERO_DIVISOR, 1, 24,
     {LOAD_NR, BPF_STMT(BPF_ALU | BPF_DIV | BPF_K, 0), ALLOW}},
    {"no return", MOTCHIDU_NO_FINAL_RETURN, NOWHERE, 16, {ALLOW, LOAD_NR}},
    {"a word that one way didn't store", MOTCHIDU_UNSTORED, 2, 32,
     {BPF_JUMP(BPF_JMP | BPF_JEQ | BPF_K, 0, 0, 1), BPF_STMT(BPF_ST, 3), BPF_STMT(BPF_LDX | BPF_MEM, 3),
      ALLOW}},
};

static int wrong;

static void expect(const char *name, uint32_t status, size_t at, uint32_t want, size_t want_at) {
    if (status == want && at == want_at)
        return;
    printf("%s: answered %u at %zu, not %u at %zu\n", name, status, at, want, want_at);
    wrong++;
}

static uint32_t verify(const void *code, size_t len, size_t *at) {
    *at = NOWHERE;
    return motchidu_verify(code, len, at);
}

/* Runs a filter on two empty calls, with these lengths passed, and checks whether anything was written. */
static void expect_run(const char *name, const void *code, size_t len, size_t calls_len, size_t steps_len,
                       uint32_t want) {
    static const struct seccomp_data calls[2];
    uint32_t values[2] = {NOWHERE, NOWHERE}, steps[2] = {NOWHERE, NOWHERE};
    uint32_t status = motchidu_run_all(code, len, calls, calls_len, values, 2, steps, steps_len);
    int is_kept = values[0] == NOWHERE && values[1] == NOWHERE && steps[0] == NOWHERE && steps[1] == NOWHERE;
    expect(name, status, 0, want, 0);
    if (is_kept == (want == MOTCHIDU_ACCEPTED)) {
        printf("%s: %s was written\n", name, is_kept ? "nothing" : "something");
        wrong++;
    }
}

#define ENTRY(fields) "{\"defaultAction\":\"SCMP_ACT_ALLOW\",\"syscalls\":[{" fields "}]}"
#define ARG(fields) ENTRY("\"names\":[\"read\"],\"action\":\"SCMP_ACT_TRAP\",\"args\":[" fields "]")

static const struct {
    const char *text;
    enum motchidu_status want;
    const char *place;
} profiles[] = {
    {ENTRY("\"names\":[\"read\"],\"action\":\"SCMP_ACT_TRAP\""), MOTCHIDU_ACCEPTED, NULL},
    {"{", MOTCHIDU_NOT_JSON, ""},
    {"[]", MOTCHIDU_NOT_OBJECT, ""},
    {"{}", MOTCHIDU_MISSING, "defaultAction"},
    {"{\"defaultAction\":1}", MOTCHIDU_WRONG_TYPE, "defaultAction"},
    {"{\"defaultAction\":\"ALLOW\"}", MOTCHIDU_UNKNOWN_ACTION, "defaultAction"},
    {ARG("{\"index\":0,\"value\":1,\"op\":\"EQ\"}"), MOTCHIDU_UNKNOWN_OP, "syscalls[0].args[0].op"},
    {ARG("{\"index\":6,\"value\":1,\"op\":\"SCMP_CMP_EQ\"}"),
     MOTCHIDU_BAD_INDEX, "syscalls[0].args[0].index"},
    {ENTRY("\"names\":[],\"action\":\"SCMP_ACT_TRAP\""), MOTCHIDU_EMPTY_NAMES, "syscalls[0].names"},
    {ARG("{\"index\":0,\"value\":1,\"op\":\"SCMP_CMP_EQ\"},{\"index\":0}"),
     MOTCHIDU_REPEATED_INDEX, "syscalls[0].args[1].index"},
    {"{\"defaultAction\":\"SCMP_ACT_ALLOW\",\"defaultErrnoRet\":1}",
     MOTCHIDU_ERRNO_NOT_ALLOWED, "defaultErrnoRet"},
    {"{\"defaultAction\":\"SCMP_ACT_ERRNO\",\"defaultErrnoRet\":4096}",
     MOTCHIDU_ERRNO_TOO_LARGE, "defaultErrnoRet"},
    {ENTRY("\"names\":[\"nosuchcall\"],\"action\":\"SCMP_ACT_TRAP\""),
     MOTCHIDU_UNKNOWN_CALL, "syscalls[0].names[0]"},
    {"{\"defaultAction\":\"SCMP_ACT_NOTIFY\"}", MOTCHIDU_NOTIFY, "defaultAction"},
};

/* Compiles a profile with this much room, and checks that room and length are right for the answer. */
static void expect_compiled(const char *name, const char *text, size_t text_len, size_t room, uint32_t want,
                            size_t want_length) {
    static uint8_t filter[64];
    size_t length = NOWHERE, after = want == MOTCHIDU_ACCEPTED ? want_length : 0;
    memset(filter, 0xa5, sizeof filter);
    uint32_t status = motchidu_compile(text, text_len, filter, room, &length);
    expect(name, status, length, want, want_length);
    for (size_t i = after; i < sizeof filter; i++)
        if (filter[i] != 0xa5) {
            printf("%s: byte %zu was written\n", name, i);
            wrong++;
        }
    size_t at;
    if (after > 0)
        expect(name, verify(filter, after, &at), at, MOTCHIDU_ACCEPTED, NOWHERE);
}

static void expect_profiles(void) {
    /* a test of the architecture and one of the number for each of two edges, three returns, two loads */
    static char large[262144 + 1], heavy[8192];
    for (size_t i = 0; i < sizeof profiles / sizeof *profiles; i++) {
        size_t length = profiles[i].want == MOTCHIDU_ACCEPTED ? 64 : NOWHERE;
        expect_compiled(profiles[i].text, profiles[i].text, strlen(profiles[i].text), 64, profiles[i].want,
                        length);
    }
    expect_compiled("room for all but a byte", profiles[0].text, strlen(profiles[0].text), 63,
                    MOTCHIDU_NO_ROOM, 64);
    expect_compiled("no room", profiles[0].text, strlen(profiles[0].text), 0, MOTCHIDU_NO_ROOM, 64);
    expect_compiled("no text", NULL, 0, 64, MOTCHIDU_NOT_JSON, NOWHERE);
    memset(large, ' ', sizeof large);
    expect_compiled("262,144 bytes", large, sizeof large - 1, 64, MOTCHIDU_NOT_JSON, NOWHERE);
    expect_compiled("262,145 bytes", large, sizeof large, 64, MOTCHIDU_TOO_LARGE, NOWHERE);
    /* 512 names weigh 7 and 8 each, 4,103 */
    strcpy(heavy, "{\"defaultAction\":\"SCMP_ACT_ERRNO\",\"syscalls\":[{\"action\":\"SCMP_ACT_ALLOW\","
                  "\"names\":[\"read\"");
    for (int i = 1; i < 512; i++)
        strcat(heavy, ",\"read\"");
    strcat(heavy, "]}]}");
    expect_compiled("512 names", heavy, strlen(heavy), 64, MOTCHIDU_TOO_HEAVY, NOWHERE);
    served = 0;
    expect_compiled("no memory for a profile", profiles[0].text, strlen(profiles[0].text), 64,
                    MOTCHIDU_MEMORY, NOWHERE);
    expect_compiled("no memory, too large", large, sizeof large, 64, MOTCHIDU_TOO_LARGE, NOWHERE);
    served = ALL;
}

static void expect_longest(const char *name, const void *code, size_t len, uint32_t want,
                           uint32_t want_longest, size_t want_at) {
    uint32_t longest = NOWHERE;
    size_t at = NOWHERE;
    uint32_t status = motchidu_longest(code, len, &longest, &at);
    expect(name, status, at, want, want_at);
    expect(name, longest, 0, want == MOTCHIDU_ACCEPTED ? want_longest : NOWHERE, 0);
}

/* Filters to compare. */
static const struct code {
    size_t len;
    struct sock_filter code[5];
} allows = {8, {ALLOW}}, loads = {16, {LOAD_NR, ALLOW}},
  no_ptrace = {32, {LOAD_NR, TEST(BPF_JEQ, 101, 0, 1), KILL, ALLOW}},
  turned_around = {32, {LOAD_NR, TEST(BPF_JEQ, 101, 1, 0), ALLOW, KILL}},
  no_x32 = {32, {LOAD_NR, TEST(BPF_JGE, 0x40000000, 0, 1), KILL, ALLOW}},
  adds = {24, {LOAD_NR, BPF_STMT(BPF_ALU | BPF_ADD | BPF_K, 1), BPF_STMT(BPF_RET | BPF_A, 0)}},
  keeps_and_adds = {32, {LOAD_NR, BPF_STMT(BPF_ST, 0), BPF_STMT(BPF_ALU | BPF_ADD | BPF_K, 1),
                         BPF_STMT(BPF_RET | BPF_A, 0)}},
  orders_a_part = {40, {LOAD_NR, BPF_STMT(BPF_ALU | BPF_AND | BPF_K, 0xff), TEST(BPF_JGT, 0x10, 0, 1), KILL,
                        ALLOW}};

static const struct {
    const char *name;
    const struct code *first, *second;
    bool native;
    uint64_t budget;
    enum motchidu_status want;
} pairs[] = {
    {"a filter and itself", &no_ptrace, &no_ptrace, false, 100, MOTCHIDU_SAME},
    {"a load of no use", &loads, &allows, false, 100, MOTCHIDU_SAME},
    {"a call is denied", &no_ptrace, &loads, false, 100, MOTCHIDU_DIFFER},
    {"a native call is denied", &no_ptrace, &loads, true, 100, MOTCHIDU_DIFFER},
    {"the second denies it", &loads, &no_ptrace, true, 100, MOTCHIDU_DIFFER},
    {"calls of x32 are denied", &no_x32, &allows, false, 100, MOTCHIDU_DIFFER},
    {"none of which is native", &no_x32, &allows, true, 100, MOTCHIDU_SAME},
    {"no budget", &loads, &allows, false, 0, MOTCHIDU_BUDGET},
    {"a budget of 1", &loads, &allows, false, 1, MOTCHIDU_BUDGET},
    {"two of three instructions", &loads, &allows, false, 2, MOTCHIDU_BUDGET},
    {"three of three", &loads, &allows, false, 3, MOTCHIDU_SAME},
    {"a sum is returned", &adds, &keeps_and_adds, false, 100, MOTCHIDU_ARITHMETIC},
    {"a sum and its copy, without a budget", &adds, &adds, false, 0, MOTCHIDU_SAME},
    {"a part of the number is ordered", &orders_a_part, &orders_a_part, false, 100, MOTCHIDU_SAME},
};

/* What the filter returns on the call. */
static uint32_t returned(const struct code *filter, const struct seccomp_data *call) {
    uint32_t value = NOWHERE, steps;
    motchidu_run_all(filter->code, filter->len, call, sizeof *call, &value, 1, &steps, 1);
    return value;
}

/* Compares two filters, and checks that what was written is right for the answer. */
static void expect_compared(const char *name, const struct code *first, const struct code *second,
                            bool native, uint64_t budget, uint32_t want) {
    struct seccomp_data call, before;
    uint32_t values[2] = {NOWHERE, NOWHERE};
    memset(&before, 0xa5, sizeof before);
    call = before;
    uint32_t status = motchidu_compare(first->code, first->len, second->code, second->len, native, budget,
                                       &call, values);
    expect(name, status, 0, want, 0);
    if (want != MOTCHIDU_DIFFER) {
        if (memcmp(&call, &before, sizeof call) != 0 || values[0] != NOWHERE || values[1] != NOWHERE) {
            printf("%s: something was written\n", name);
            wrong++;
        }
        return;
    }
    bool is_native = call.arch == AUDIT_ARCH_X86_64 && (uint32_t)call.nr < 0x40000000;
    if (values[0] == values[1] || values[0] != returned(first, &call) ||
        values[1] != returned(second, &call) || (native && !is_native)) {
        printf("%s: %u and %u at %d of %x\n", name, values[0], values[1], call.nr, call.arch);
        wrong++;
    }
}

static void expect_pairs(void) {
    static const struct code half = {12, {LOAD_NR, ALLOW}}, nothing = {0, {{0}}};
    for (size_t i = 0; i < sizeof pairs / sizeof *pairs; i++)
        expect_compared(pairs[i].name, pairs[i].first, pairs[i].second, pairs[i].native, pairs[i].budget,
                        pairs[i].want);
    for (size_t i = 0; i < sizeof rows / sizeof *rows; i++) {
        struct code refused = {rows[i].len, {{0}}};
        if (rows[i].want == MOTCHIDU_ACCEPTED)
            continue;
        memcpy(refused.code, rows[i].code, sizeof rows[i].code);
        expect_compared(rows[i].name, &refused, &loads, false, 100, rows[i].want);
        expect_compared(rows[i].name, &loads, &refused, false, 100, rows[i].want);
        expect_compared(rows[i].name, &refused, &nothing, false, 100, rows[i].want);
    }
    expect_compared("half an instruction, and nothing", &half, &nothing, false, 100, MOTCHIDU_LENGTH);
    expect_compared("nothing, and half an instruction", &nothing, &half, false, 100, MOTCHIDU_EMPTY);
    served = 0;
    expect_compared("half an instruction, no memory", &half, &loads, false, 100, MOTCHIDU_LENGTH);
    expect_compared("no memory, half an instruction", &loads, &half, false, 100, MOTCHIDU_MEMORY);
    served = ALL;
}

/* Refuses each request for memory of a comparison in turn. */
static void expect_pairs_without_memory(void) {
    enum { MOST_REQUESTS = 4 };
    for (int requests = 0; requests < MOST_REQUESTS; requests++) {
        served = requests;
        expect_compared("a request is refused", &no_ptrace, &turned_around, false, 100, MOTCHIDU_MEMORY);
    }
    served = MOST_REQUESTS;
    expect_compared("all are served", &no_ptrace, &turned_around, false, 100, MOTCHIDU_SAME);
    served = ALL;
}

/* Compiles a profile with room for this much of the place, and checks that the place is as it should be. */
static void expect_placed(const char *text, size_t room, uint32_t want, const char *want_place) {
    static uint8_t filter[64];
    char place[32];
    size_t length = NOWHERE, place_length = NOWHERE;
    size_t want_length = want == MOTCHIDU_ACCEPTED ? 64 : NOWHERE;
    size_t takes = want_place ? strlen(want_place) : NOWHERE, written = takes <= room ? takes : 0;
    memset(place, '#', sizeof place);
    uint32_t status = motchidu_compile_at(text, strlen(text), filter, sizeof filter, &length, place, room,
                                          &place_length);
    expect(text, status, length, want, want_length);
    expect(text, 0, place_length, 0, takes);
    for (size_t i = 0; i < sizeof place; i++)
        if (place[i] != (i < written ? want_place[i] : '#')) {
            printf("%s: at %.32s\n", text, place);
            wrong++;
            break;
        }
}

static void expect_places(void) {
    for (size_t i = 0; i < sizeof profiles / sizeof *profiles; i++) {
        const char *place = profiles[i].place;
        expect_placed(profiles[i].text, 32, profiles[i].want, place);
        expect_placed(profiles[i].text, 0, profiles[i].want, place);
        if (!place || place[0] == '\0')
            continue;
        expect_placed(profiles[i].text, strlen(place), profiles[i].want, place);
        expect_placed(profiles[i].text, strlen(place) - 1, profiles[i].want, place);
    }
    served = 0;
    expect_placed(profiles[3].text, 32, MOTCHIDU_MEMORY, NULL);
    served = ALL;
}

/* A text that is written into this much room: whether the answer, the length and the bytes are as they should
 * be. The text is what is wanted, or NULL if nothing is to be written. */
static void expect_text(const char *name, uint32_t status, uint32_t want, const char *room, size_t room_len,
                        size_t length, const char *want_text) {
    size_t takes = want_text ? strlen(want_text) : NOWHERE;
    size_t written = want == MOTCHIDU_ACCEPTED ? takes : 0;
    expect(name, status, length, want, takes);
    for (size_t i = 0; i < room_len; i++)
        if (room[i] != (i < written ? want_text[i] : '#')) {
            printf("%s: byte %zu is %02x\n", name, i, room[i]);
            wrong++;
            break;
        }
}

static void expect_call(const char *call, size_t len, uint32_t want, uint32_t want_number) {
    uint32_t number = NOWHERE, status = motchidu_call_number(call, len, &number);
    expect(call ? call : "no name", status, number, want, want_number);
}

static void expect_name(uint32_t number, size_t room, uint32_t want, const char *want_name) {
    char name[32], row[32];
    size_t length = NOWHERE;
    memset(name, '#', sizeof name);
    snprintf(row, sizeof row, "call %u", number);
    uint32_t status = motchidu_call_name(number, name, room, &length);
    expect_text(row, status, want, name, sizeof name, length, want_name);
}

/* Names and numbers at both ends of the table, and beside it. */
static void expect_calls(void) {
    expect_call("read", 4, MOTCHIDU_ACCEPTED, 0);
    expect_call("ptrace", 6, MOTCHIDU_ACCEPTED, 101);
    expect_call("faccessat2", 10, MOTCHIDU_ACCEPTED, 439);
    expect_call("ptrac", 5, MOTCHIDU_UNKNOWN_CALL, NOWHERE);
    expect_call("ptrace", 7, MOTCHIDU_UNKNOWN_CALL, NOWHERE);
    expect_call("PTRACE", 6, MOTCHIDU_UNKNOWN_CALL, NOWHERE);
    expect_call("ptrace\xff", 7, MOTCHIDU_UNKNOWN_CALL, NOWHERE);
    expect_call("\xff", 1, MOTCHIDU_UNKNOWN_CALL, NOWHERE);
    expect_call(NULL, 0, MOTCHIDU_UNKNOWN_CALL, NOWHERE);
    expect_name(0, 32, MOTCHIDU_ACCEPTED, "read");
    expect_name(101, 6, MOTCHIDU_ACCEPTED, "ptrace");
    expect_name(101, 5, MOTCHIDU_NO_ROOM, "ptrace");
    expect_name(439, 32, MOTCHIDU_ACCEPTED, "faccessat2");
    expect_name(440, 32, MOTCHIDU_UNKNOWN_CALL, NULL);
    expect_name(256 + 101, 32, MOTCHIDU_UNKNOWN_CALL, NULL);
    expect_name(0x40000000, 32, MOTCHIDU_UNKNOWN_CALL, NULL);
    size_t length = NOWHERE;
    uint32_t status = motchidu_call_name(0, NULL, 0, &length);
    expect("no room for a name", status, length, MOTCHIDU_NO_ROOM, 4);
}

/* RuntimeDefault is a profile, whose text needs all of its room. */
static void expect_default(void) {
    static char text[8192], again[8192];
    static uint8_t filter[32768];
    size_t needed = NOWHERE, length = NOWHERE;
    served = 0;
    uint32_t status = motchidu_default(text, sizeof text, &length);
    expect("no memory for the default", status, length, MOTCHIDU_MEMORY, NOWHERE);
    served = ALL;
    expect("no room", motchidu_default(NULL, 0, &needed), 0, MOTCHIDU_NO_ROOM, 0);
    memset(text, '#', sizeof text);
    status = motchidu_default(text, needed - 1, &length);
    expect("a byte too few", status, length, MOTCHIDU_NO_ROOM, needed);
    expect("nothing is written", (uint32_t)text[0], 0, '#', 0);
    status = motchidu_default(text, needed, &length);
    expect("the default", status, length, MOTCHIDU_ACCEPTED, needed);
    expect("the byte behind it", (uint32_t)text[needed], 0, '#', 0);
    status = motchidu_default(again, sizeof again, &length);
    expect("more room", status, length, MOTCHIDU_ACCEPTED, needed);
    expect("the same text", memcmp(text, again, needed) == 0, 0, 1, 0);
    status = motchidu_compile(text, needed, filter, sizeof filter, &length);
    expect("is a profile", status, 0, MOTCHIDU_ACCEPTED, 0);
}

/* Three entries; the second has a condition. */
static const char explained[] =
    "{\"defaultAction\":\"SCMP_ACT_ERRNO\",\"defaultErrnoRet\":38,\"syscalls\":["
    "{\"names\":[\"read\"],\"action\":\"SCMP_ACT_ALLOW\"},"
    "{\"names\":[\"socket\"],\"action\":\"SCMP_ACT_ALLOW\","
    "\"args\":[{\"index\":0,\"value\":9,\"op\":\"SCMP_CMP_GE\"}]},"
    "{\"names\":[\"socket\"],\"action\":\"SCMP_ACT_TRAP\"}]}";

static void expect_explained(const char *name, const char *text, struct seccomp_data call, uint32_t want,
                             uint32_t want_decider, size_t want_entry, uint32_t want_value) {
    uint32_t decider = NOWHERE, value = NOWHERE;
    size_t entry = NOWHERE;
    uint32_t status = motchidu_explain(text, strlen(text), &call, &decider, &entry, &value);
    expect(name, status, entry, want, want_entry);
    expect(name, decider, 0, want_decider, 0);
    expect(name, value, 0, want_value, 0);
}

static void expect_decided(const char *name, struct seccomp_data call, uint32_t decider, size_t entry,
                           uint32_t value) {
    expect_explained(name, explained, call, MOTCHIDU_ACCEPTED, decider, entry, value);
}

static void expect_deciders(void) {
    struct seccomp_data call = {.nr = 0, .arch = AUDIT_ARCH_X86_64};
    expect_decided("read", call, MOTCHIDU_BY_ENTRY, 0, SECCOMP_RET_ALLOW);
    call.nr = 1;
    expect_decided("write", call, MOTCHIDU_BY_DEFAULT, NOWHERE, SECCOMP_RET_ERRNO | 38);
    call.nr = 41;
    expect_decided("socket 0", call, MOTCHIDU_BY_ENTRY, 2, SECCOMP_RET_TRAP);
    call.args[0] = 9;
    expect_decided("socket 9", call, MOTCHIDU_BY_ENTRY, 1, SECCOMP_RET_ALLOW);
    call.nr = 0x40000000;
    expect_decided("x32", call, MOTCHIDU_BY_X32, NOWHERE, SECCOMP_RET_KILL_PROCESS);
    call.arch = AUDIT_ARCH_I386;
    expect_decided("i386", call, MOTCHIDU_BY_ARCHITECTURE, NOWHERE, SECCOMP_RET_KILL_PROCESS);
    for (size_t i = 1; i < sizeof profiles / sizeof *profiles; i++)
        expect_explained(profiles[i].text, profiles[i].text, call, profiles[i].want, NOWHERE, NOWHERE,
                         NOWHERE);
    served = 0;
    expect_explained("no memory", explained, call, MOTCHIDU_MEMORY, NOWHERE, NOWHERE, NOWHERE);
    served = ALL;
}

#define TEMPLATE(fields) \
    "{\"defaultAction\":\"SCMP_ACT_ERRNO\",\"syscalls\":[{\"action\":\"SCMP_ACT_ALLOW\"," fields "}]}"
#define RESOLVED(more) \
    "{\"defaultAction\":\"SCMP_ACT_ERRNO\",\"defaultErrnoRet\":1,\"syscalls\":[" more "]}"
#define BPF_ALLOWED "{\"action\":\"SCMP_ACT_ALLOW\",\"names\":[\"bpf\"]}"
#define FOR_CAPS \
    TEMPLATE("\"names\":[\"bpf\"],\"includes\":{\"caps\":[\"CAP_SYS_ADMIN\",\"CAP_BPF\"]}")
#define FOR_KERNEL TEMPLATE("\"names\":[\"bpf\"],\"includes\":{\"minKernel\":\"5.8\"}")

enum { BEYOND = 63 };

/* Templates under settings, with the profile that is wanted of each that is one. */
static const struct {
    const char *text;
    uint64_t caps;
    uint32_t major, minor;
    enum motchidu_status want;
    const char *profile;
} templates[] = {
    {FOR_CAPS, UINT64_MAX, 6, 1, MOTCHIDU_ACCEPTED, RESOLVED(BPF_ALLOWED)},
    {FOR_CAPS, UINT64_C(1) << CAP_SYS_ADMIN | UINT64_C(1) << CAP_BPF, 6, 1, MOTCHIDU_ACCEPTED,
     RESOLVED(BPF_ALLOWED)},
    {FOR_CAPS, UINT64_C(1) << CAP_SYS_ADMIN, 6, 1, MOTCHIDU_ACCEPTED, RESOLVED("")},
    {FOR_CAPS, UINT64_C(1) << CAP_BPF, 6, 1, MOTCHIDU_ACCEPTED, RESOLVED("")},
    {FOR_CAPS, UINT64_C(1) << BEYOND, 6, 1, MOTCHIDU_ACCEPTED, RESOLVED("")},
    {FOR_KERNEL, 0, 5, 7, MOTCHIDU_ACCEPTED, RESOLVED("")},
    {FOR_KERNEL, 0, 5, 8, MOTCHIDU_ACCEPTED, RESOLVED(BPF_ALLOWED)},
    {FOR_KERNEL, 0, 4, 9, MOTCHIDU_ACCEPTED, RESOLVED("")},
    {FOR_KERNEL, 0, UINT32_MAX, UINT32_MAX, MOTCHIDU_ACCEPTED, RESOLVED(BPF_ALLOWED)},
    {TEMPLATE("\"names\":[\"bpf\"],\"includes\":{\"arches\":[\"amd64\"]}"), 0, 6, 1, MOTCHIDU_ACCEPTED,
     RESOLVED(BPF_ALLOWED)},
    {TEMPLATE("\"name\":\"bpf\",\"names\":[\"read\"]"), 0, 6, 1, MOTCHIDU_BOTH, NULL},
    {"{\"defaultAction\":\"SCMP_ACT_ERRNO\",\"defaultErrno\":\"ENOSUCH\"}", 0, 6, 1,
     MOTCHIDU_UNKNOWN_ERRNO, NULL},
    {TEMPLATE("\"names\":[\"bpf\"],\"includes\":{\"minKernel\":\"5\"}"), 0, 6, 1, MOTCHIDU_BAD_KERNEL,
     NULL},
    {TEMPLATE("\"names\":[]"), 0, 6, 1, MOTCHIDU_EMPTY_NAMES, NULL},
    {"{", 0, 6, 1, MOTCHIDU_NOT_JSON, NULL},
};

static void expect_resolved(size_t i, size_t room, uint32_t want, const char *want_text) {
    char text[256];
    size_t length = NOWHERE;
    memset(text, '#', sizeof text);
    uint32_t status = motchidu_resolve(templates[i].text, strlen(templates[i].text), templates[i].caps,
                                       templates[i].major, templates[i].minor, text, room, &length);
    expect_text(templates[i].text, status, want, text, sizeof text, length, want_text);
}

static void expect_templates(void) {
    for (size_t i = 0; i < sizeof templates / sizeof *templates; i++) {
        const char *profile = templates[i].profile;
        expect_resolved(i, 256, templates[i].want, profile);
        if (profile) {
            expect_resolved(i, strlen(profile), templates[i].want, profile);
            expect_resolved(i, strlen(profile) - 1, MOTCHIDU_NO_ROOM, profile);
        }
    }
    served = 0;
    expect_resolved(0, 256, MOTCHIDU_MEMORY, NULL);
    served = ALL;
}

/* Each capability by its number and its name, of linux/capability.h. */
#define CAP(name) {name, #name}
static const struct {
    int number;
    const char *name;
} capabilities[] = {
    CAP(CAP_CHOWN), CAP(CAP_DAC_OVERRIDE), CAP(CAP_DAC_READ_SEARCH), CAP(CAP_FOWNER), CAP(CAP_FSETID),
    CAP(CAP_KILL), CAP(CAP_SETGID), CAP(CAP_SETUID), CAP(CAP_SETPCAP), CAP(CAP_LINUX_IMMUTABLE),
    CAP(CAP_NET_BIND_SERVICE), CAP(CAP_NET_BROADCAST), CAP(CAP_NET_ADMIN), CAP(CAP_NET_RAW),
    CAP(CAP_IPC_LOCK), CAP(CAP_IPC_OWNER), CAP(CAP_SYS_MODULE), CAP(CAP_SYS_RAWIO), CAP(CAP_SYS_CHROOT),
    CAP(CAP_SYS_PTRACE), CAP(CAP_SYS_PACCT), CAP(CAP_SYS_ADMIN), CAP(CAP_SYS_BOOT), CAP(CAP_SYS_NICE),
    CAP(CAP_SYS_RESOURCE), CAP(CAP_SYS_TIME), CAP(CAP_SYS_TTY_CONFIG), CAP(CAP_MKNOD), CAP(CAP_LEASE),
    CAP(CAP_AUDIT_WRITE), CAP(CAP_AUDIT_CONTROL), CAP(CAP_SETFCAP), CAP(CAP_MAC_OVERRIDE),
    CAP(CAP_MAC_ADMIN), CAP(CAP_SYSLOG), CAP(CAP_WAKE_ALARM), CAP(CAP_BLOCK_SUSPEND), CAP(CAP_AUDIT_READ),
    CAP(CAP_PERFMON), CAP(CAP_BPF), CAP(CAP_CHECKPOINT_RESTORE),
};

/* Whether a template's entry for this capability is kept under the mask. */
static bool is_kept(const char *name, uint64_t mask) {
    char template_text[256], text[256];
    size_t length = 0;
    snprintf(template_text, sizeof template_text,
             TEMPLATE("\"names\":[\"bpf\"],\"includes\":{\"caps\":[\"%s\"]}"), name);
    uint32_t status =
        motchidu_resolve(template_text, strlen(template_text), mask, 6, 1, text, sizeof text, &length);
    return status == MOTCHIDU_ACCEPTED && length == strlen(RESOLVED(BPF_ALLOWED));
}

static void expect_capabilities(void) {
    for (size_t i = 0; i < sizeof capabilities / sizeof *capabilities; i++) {
        uint64_t bit = UINT64_C(1) << capabilities[i].number;
        expect(capabilities[i].name, is_kept(capabilities[i].name, bit), 0, true, 0);
        expect(capabilities[i].name, is_kept(capabilities[i].name, ~bit), 0, false, 0);
    }
}

/* Returns the status of a function, and checks that nothing was written if memory ran out. */
static uint32_t kept(const char *name, uint32_t status, size_t length, const char *text) {
    if (status == MOTCHIDU_MEMORY && (length != NOWHERE || text[0] != '#')) {
        printf("%s: something was written\n", name);
        wrong++;
    }
    return status;
}

static uint32_t write_default(void) {
    static char text[8192];
    size_t length = NOWHERE;
    text[0] = '#';
    uint32_t status = motchidu_default(text, sizeof text, &length);
    return kept("default", status, length, text);
}

static uint32_t resolve_template(void) {
    char text[256] = "#";
    size_t length = NOWHERE;
    uint32_t status = motchidu_resolve(templates[0].text, strlen(templates[0].text), templates[0].caps, 6, 1,
                                       text, sizeof text, &length);
    return kept("resolve", status, length, text);
}

static uint32_t explain_call(void) {
    static const struct seccomp_data socket = {.nr = 41, .arch = AUDIT_ARCH_X86_64};
    uint32_t decider = NOWHERE, value = NOWHERE;
    size_t entry = NOWHERE;
    uint32_t status = motchidu_explain(explained, strlen(explained), &socket, &decider, &entry, &value);
    return kept("explain", status, decider == NOWHERE && value == NOWHERE ? entry : 0, "#");
}

static uint32_t compile_faulty(void) {
    static const char text[] = ENTRY("\"names\":[\"read\",1],\"action\":\"SCMP_ACT_TRAP\"");
    static uint8_t filter[64];
    char place[32] = "#";
    size_t length = NOWHERE, place_length = NOWHERE;
    uint32_t status = motchidu_compile_at(text, strlen(text), filter, sizeof filter, &length, place,
                                          sizeof place, &place_length);
    return kept("compile_at", status, place_length, place);
}

/* Compiles a profile with the calls of a version, and checks the answer and all that was written. */
static void expect_version(uint32_t version, const char *text, uint32_t want, size_t want_length,
                           const char *want_place) {
    static uint8_t filter[256];
    char place[32], row[32];
    size_t length = NOWHERE, place_length = NOWHERE, written = want == MOTCHIDU_ACCEPTED ? want_length : 0;
    memset(filter, 0xa5, sizeof filter);
    memset(place, '#', sizeof place);
    snprintf(row, sizeof row, "version %u", version);
    uint32_t status = motchidu_compile_with(version, text, strlen(text), filter, sizeof filter, &length,
                                            place, sizeof place, &place_length);
    expect(row, status, length, want, want_length);
    for (size_t i = written; i < sizeof filter; i++)
        expect(row, filter[i], i, 0xa5, i);
    expect(row, place_length, 0, want_place ? strlen(want_place) : NOWHERE, 0);
    for (size_t i = 0; i < sizeof place; i++)
        expect(row, place[i], i, want_place && i < strlen(want_place) ? want_place[i] : '#', i);
}

/* Entries that are stricter than the default, for a call that only Linux 6.12 has, and for an older call. */
static void expect_versions(void) {
    static const char late[] = ENTRY("\"names\":[\"futex_waitv\"],\"action\":\"SCMP_ACT_TRAP\"");
    static const char both[] = ENTRY("\"names\":[\"openat2\"],\"action\":\"SCMP_ACT_TRAP\"");
    expect_version(MOTCHIDU_LINUX_5_8, late, MOTCHIDU_UNKNOWN_CALL, NOWHERE, "syscalls[0].names[0]");
    expect_version(MOTCHIDU_LINUX_6_12, late, MOTCHIDU_ACCEPTED, 64, NULL);
    expect_version(MOTCHIDU_LINUX_5_8, both, MOTCHIDU_ACCEPTED, 64, NULL);
    expect_version(MOTCHIDU_LINUX_6_12, both, MOTCHIDU_ACCEPTED, 64, NULL);
    expect_version(2, both, MOTCHIDU_UNKNOWN_VERSION, NOWHERE, NULL);
    expect_version(UINT32_MAX, "{", MOTCHIDU_UNKNOWN_VERSION, NOWHERE, NULL);
    served = 0;
    expect_version(MOTCHIDU_LINUX_6_12, late, MOTCHIDU_MEMORY, NOWHERE, NULL);
    expect_version(2, both, MOTCHIDU_UNKNOWN_VERSION, NOWHERE, NULL);
    served = ALL;
}

/* Finds a call by its name or its number among those of a version, and checks the answer and what was
 * written. */
static void expect_call_of(uint32_t version, const char *name, uint32_t want, uint32_t want_number) {
    uint32_t number = NOWHERE;
    uint32_t status = motchidu_call_number_with(version, name, strlen(name), &number);
    expect(name, status, number, want, want_number);
}

static void expect_name_of(uint32_t version, uint32_t number, uint32_t want, const char *want_name) {
    char name[32], row[32];
    size_t length = NOWHERE;
    memset(name, '#', sizeof name);
    snprintf(row, sizeof row, "call %u of version %u", number, version);
    uint32_t status = motchidu_call_name_with(version, number, name, sizeof name, &length);
    expect_text(row, status, want, name, sizeof name, length, want_name);
}

/* The last calls of each version: asm/unistd_64.h. */
static void expect_calls_of_versions(void) {
    expect_call_of(MOTCHIDU_LINUX_5_8, "faccessat2", MOTCHIDU_ACCEPTED, 439);
    expect_call_of(MOTCHIDU_LINUX_5_8, "mseal", MOTCHIDU_UNKNOWN_CALL, NOWHERE);
    expect_call_of(MOTCHIDU_LINUX_6_12, "faccessat2", MOTCHIDU_ACCEPTED, 439);
    expect_call_of(MOTCHIDU_LINUX_6_12, "mseal", MOTCHIDU_ACCEPTED, 462);
    expect_call_of(MOTCHIDU_LINUX_6_12, "setxattrat", MOTCHIDU_UNKNOWN_CALL, NOWHERE);
    expect_call_of(2, "read", MOTCHIDU_UNKNOWN_VERSION, NOWHERE);
    expect_name_of(MOTCHIDU_LINUX_5_8, 439, MOTCHIDU_ACCEPTED, "faccessat2");
    expect_name_of(MOTCHIDU_LINUX_5_8, 462, MOTCHIDU_UNKNOWN_CALL, NULL);
    expect_name_of(MOTCHIDU_LINUX_6_12, 439, MOTCHIDU_ACCEPTED, "faccessat2");
    expect_name_of(MOTCHIDU_LINUX_6_12, 462, MOTCHIDU_ACCEPTED, "mseal");
    expect_name_of(MOTCHIDU_LINUX_6_12, 463, MOTCHIDU_UNKNOWN_CALL, NULL);
    expect_name_of(2, 0, MOTCHIDU_UNKNOWN_VERSION, NULL);
    char name[4];
    size_t length = NOWHERE;
    uint32_t status = motchidu_call_name_with(MOTCHIDU_LINUX_6_12, 462, name, sizeof name, &length);
    expect("no room for mseal", status, length, MOTCHIDU_NO_ROOM, 5);
}

/* An entry that allows a call which only Linux 6.12 has, and one that traps it. */
static const char allows_late[] =
    "{\"defaultAction\":\"SCMP_ACT_ERRNO\",\"defaultErrnoRet\":38,"
    "\"syscalls\":[{\"names\":[\"mseal\"],\"action\":\"SCMP_ACT_ALLOW\"}]}";
static const char traps_late[] = ENTRY("\"names\":[\"mseal\"],\"action\":\"SCMP_ACT_TRAP\"");

static void expect_explained_by(uint32_t version, const char *text, uint32_t want, uint32_t want_decider,
                                size_t want_entry, uint32_t want_value) {
    struct seccomp_data call = {.nr = 462, .arch = AUDIT_ARCH_X86_64};
    uint32_t decider = NOWHERE, value = NOWHERE;
    size_t entry = NOWHERE;
    char row[32];
    snprintf(row, sizeof row, "explained by %u", version);
    uint32_t status = motchidu_explain_with(version, text, strlen(text), &call, &decider, &entry, &value);
    expect(row, status, entry, want, want_entry);
    expect(row, decider, 0, want_decider, 0);
    expect(row, value, 0, want_value, 0);
}

/* The same for the call of a name, with its first argument. */
static void expect_explained_name(uint32_t version, const char *name, uint64_t arg, uint32_t want,
                                  uint32_t want_decider, size_t want_entry, uint32_t want_value) {
    const uint64_t args[6] = {arg};
    uint32_t decider = NOWHERE, value = NOWHERE;
    size_t entry = NOWHERE;
    uint32_t status = motchidu_explain_name(version, explained, strlen(explained), name, strlen(name), args,
                                            &decider, &entry, &value);
    expect(name, status, entry, want, want_entry);
    expect(name, decider, 0, want_decider, 0);
    expect(name, value, 0, want_value, 0);
}

static void expect_explained_names(void) {
    const uint32_t newest = MOTCHIDU_LINUX_6_12;
    expect_explained_name(newest, "read", 0, MOTCHIDU_ACCEPTED, MOTCHIDU_BY_ENTRY, 0, SECCOMP_RET_ALLOW);
    expect_explained_name(newest, "socket", 9, MOTCHIDU_ACCEPTED, MOTCHIDU_BY_ENTRY, 1, SECCOMP_RET_ALLOW);
    expect_explained_name(newest, "socket", 8, MOTCHIDU_ACCEPTED, MOTCHIDU_BY_ENTRY, 2, SECCOMP_RET_TRAP);
    expect_explained_name(newest, "mseal", 0, MOTCHIDU_ACCEPTED, MOTCHIDU_BY_DEFAULT, NOWHERE,
                          SECCOMP_RET_ERRNO | 38);
    expect_explained_name(MOTCHIDU_LINUX_5_8, "mseal", 0, MOTCHIDU_UNKNOWN_CALL, NOWHERE, NOWHERE, NOWHERE);
    expect_explained_name(newest, "mseel", 0, MOTCHIDU_UNKNOWN_CALL, NOWHERE, NOWHERE, NOWHERE);
    expect_explained_name(2, "read", 0, MOTCHIDU_UNKNOWN_VERSION, NOWHERE, NOWHERE, NOWHERE);
    served = 0;
    expect_explained_name(newest, "read", 0, MOTCHIDU_MEMORY, NOWHERE, NOWHERE, NOWHERE);
    expect_explained_name(newest, "mseel", 0, MOTCHIDU_UNKNOWN_CALL, NOWHERE, NOWHERE, NOWHERE);
    served = ALL;
}

static void expect_explained_by_versions(void) {
    expect_explained_by(MOTCHIDU_LINUX_5_8, allows_late, MOTCHIDU_ACCEPTED, MOTCHIDU_BY_DEFAULT, NOWHERE,
                        SECCOMP_RET_ERRNO | 38);
    expect_explained_by(MOTCHIDU_LINUX_6_12, allows_late, MOTCHIDU_ACCEPTED, MOTCHIDU_BY_ENTRY, 0,
                        SECCOMP_RET_ALLOW);
    expect_explained_by(MOTCHIDU_LINUX_5_8, traps_late, MOTCHIDU_UNKNOWN_CALL, NOWHERE, NOWHERE, NOWHERE);
    expect_explained_by(MOTCHIDU_LINUX_6_12, traps_late, MOTCHIDU_ACCEPTED, MOTCHIDU_BY_ENTRY, 0,
                        SECCOMP_RET_TRAP);
    served = 0;
    expect_explained_by(MOTCHIDU_LINUX_6_12, traps_late, MOTCHIDU_MEMORY, NOWHERE, NOWHERE, NOWHERE);
    expect_explained_by(2, traps_late, MOTCHIDU_UNKNOWN_VERSION, NOWHERE, NOWHERE, NOWHERE);
    served = ALL;
}

/* Resolves a template that traps the call, and checks the names that are left. */
static void expect_resolved_by(uint32_t version, uint32_t want, const char *want_text) {
    static char text[256];
    char row[32];
    size_t length = NOWHERE;
    memset(text, '#', sizeof text);
    snprintf(row, sizeof row, "resolved by %u", version);
    uint32_t status = motchidu_resolve_with(version, traps_late, strlen(traps_late), 0, 6, 12, text,
                                            sizeof text, &length);
    expect_text(row, status, want, text, sizeof text, length, want_text);
}

static void expect_resolved_by_versions(void) {
    expect_resolved_by(MOTCHIDU_LINUX_5_8, MOTCHIDU_ACCEPTED,
                       "{\"defaultAction\":\"SCMP_ACT_ALLOW\",\"syscalls\":[]}");
    expect_resolved_by(MOTCHIDU_LINUX_6_12, MOTCHIDU_ACCEPTED,
                       "{\"defaultAction\":\"SCMP_ACT_ALLOW\",\"syscalls\":["
                       "{\"action\":\"SCMP_ACT_TRAP\",\"names\":[\"mseal\"]}]}");
    served = 0;
    expect_resolved_by(MOTCHIDU_LINUX_6_12, MOTCHIDU_MEMORY, NULL);
    expect_resolved_by(2, MOTCHIDU_UNKNOWN_VERSION, NULL);
    served = ALL;
}

static uint32_t resolve_late(void) {
    char text[256] = "#";
    size_t length = NOWHERE;
    uint32_t status = motchidu_resolve_with(MOTCHIDU_LINUX_6_12, traps_late, strlen(traps_late), 0, 6, 12, text,
                                            sizeof text, &length);
    return kept("resolve_with", status, length, text);
}

static uint32_t explain_late(void) {
    static const struct seccomp_data call = {.nr = 462, .arch = AUDIT_ARCH_X86_64};
    uint32_t decider = NOWHERE, value = NOWHERE;
    size_t entry = NOWHERE;
    uint32_t status = motchidu_explain_with(MOTCHIDU_LINUX_6_12, traps_late, strlen(traps_late), &call, &decider,
                                            &entry, &value);
    return kept("explain_with", status, decider == NOWHERE && value == NOWHERE ? entry : 0, "#");
}

static uint32_t compile_late(void) {
    static const char text[] = ENTRY("\"names\":[\"futex_waitv\",1],\"action\":\"SCMP_ACT_TRAP\"");
    static uint8_t filter[64];
    char place[32] = "#";
    size_t length = NOWHERE, place_length = NOWHERE;
    uint32_t status = motchidu_compile_with(MOTCHIDU_LINUX_6_12, text, strlen(text), filter, sizeof filter,
                                            &length, place, sizeof place, &place_length);
    return kept("compile_with", status, place_length, place);
}

/* The length of a text is checked before memory is taken. */
static void expect_too_large(void) {
    static const struct seccomp_data call;
    static char large[262144 + 1];
    char room[64];
    uint32_t decider = NOWHERE, value = NOWHERE;
    size_t length = NOWHERE, entry = NOWHERE, place_length = NOWHERE;
    memset(large, ' ', sizeof large);
    uint32_t status = motchidu_resolve(large, sizeof large, 0, 6, 1, room, sizeof room, &length);
    expect("a large template", status, length, MOTCHIDU_TOO_LARGE, NOWHERE);
    served = 0;
    status = motchidu_explain(large, sizeof large, &call, &decider, &entry, &value);
    expect("explained", status, entry, MOTCHIDU_TOO_LARGE, NOWHERE);
    status = motchidu_compile_at(large, sizeof large, NULL, 0, &length, NULL, 0, &place_length);
    expect("compiled", status, place_length, MOTCHIDU_TOO_LARGE, 0);
    served = ALL;
}

static void expect_in_turn(const char *name, uint32_t (*function)(void), uint32_t want) {
    enum { MOST_REQUESTS = 100000 };
    uint32_t status = MOTCHIDU_MEMORY;
    for (int requests = 0; status == MOTCHIDU_MEMORY && requests < MOST_REQUESTS; requests++) {
        served = requests;
        status = function();
    }
    served = ALL;
    expect(name, status, 0, want, 0);
}

/* Refuses each request for memory in turn, until all are served. */
static void expect_texts_without_memory(void) {
    expect_in_turn("default", write_default, MOTCHIDU_ACCEPTED);
    expect_in_turn("resolve", resolve_template, MOTCHIDU_ACCEPTED);
    expect_in_turn("explain", explain_call, MOTCHIDU_ACCEPTED);
    expect_in_turn("compile_at", compile_faulty, MOTCHIDU_WRONG_TYPE);
    expect_in_turn("compile_with", compile_late, MOTCHIDU_WRONG_TYPE);
    expect_in_turn("resolve_with", resolve_late, MOTCHIDU_ACCEPTED);
    expect_in_turn("explain_with", explain_late, MOTCHIDU_ACCEPTED);
}

/* In the order of their numbers. */
static const char *const names[] = {
    "Accepted", "Length", "TooLong", "BadCode", "Empty", "BadOffset", "BadJump", "BadWord", "BadShift",
    "ZeroDivisor", "NoFinalReturn", "Unstored", "Memory", "Lengths", "NotJson", "NotObject", "Missing",
    "WrongType", "UnknownAction", "UnknownOp", "BadIndex", "EmptyNames", "RepeatedIndex", "ErrnoNotAllowed",
    "ErrnoTooLarge", "UnknownCall", "Notify", "TooLarge", "TooHeavy", "NoRoom", "Same", "Differ", "Budget",
    "Arithmetic", "Both", "UnknownErrno", "BadKernel", "UnknownVersion", "Unknown",
};

static void expect_names(void) {
    for (size_t i = 0; i < sizeof names / sizeof *names; i++)
        if (strcmp(motchidu_status_text((enum motchidu_status)i), names[i]) != 0) {
            printf("%zu is %s\n", i, motchidu_status_text((enum motchidu_status)i));
            wrong++;
        }
}

int main(void) {
    size_t at;
    expect_names();
    for (size_t i = 0; i < sizeof rows / sizeof *rows; i++) {
        uint32_t status = verify(rows[i].code, rows[i].len, &at);
        expect(rows[i].name, status, at, rows[i].want, rows[i].at);
        expect_run(rows[i].name, rows[i].code, rows[i].len, 128, 2, rows[i].want);
        expect_longest(rows[i].name, rows[i].code, rows[i].len, rows[i].want, 2, rows[i].at);
        uint32_t longest = NOWHERE;
        expect(rows[i].name, motchidu_verify(rows[i].code, rows[i].len, NULL), 0, rows[i].want, 0);
        expect(rows[i].name, motchidu_longest(rows[i].code, rows[i].len, &longest, NULL), 0, rows[i].want, 0);
        uint32_t want_longest = rows[i].want == MOTCHIDU_ACCEPTED ? 2 : NOWHERE;
        expect(rows[i].name, longest, 0, want_longest, 0);
    }
    static const struct sock_filter dead[] = {ALLOW, LOAD_NR, ALLOW};
    expect_longest("a return in front", dead, sizeof dead, MOTCHIDU_ACCEPTED, 1, NOWHERE);
    expect_profiles();
    expect_places();
    expect_calls();
    expect_default();
    expect_deciders();
    expect_templates();
    expect_capabilities();
    expect_versions();
    expect_calls_of_versions();
    expect_explained_by_versions();
    expect_explained_names();
    expect_resolved_by_versions();
    expect_too_large();
    expect_texts_without_memory();
    expect_pairs();
    expect_pairs_without_memory();

    static uint8_t long_filter[8 * 4097];
    uint32_t status = verify(long_filter, sizeof long_filter, &at);
    expect("4,097 instructions", status, at, MOTCHIDU_TOO_LONG, NOWHERE);
    status = verify(NULL, 0, &at);
    expect("no pointer", status, at, MOTCHIDU_EMPTY, NOWHERE);

    expect_run("a call too few", rows[0].code, rows[0].len, 64, 2, MOTCHIDU_LENGTHS);
    expect_run("half a call", rows[0].code, rows[0].len, 96, 2, MOTCHIDU_LENGTHS);
    expect_run("a number of steps too few", rows[0].code, rows[0].len, 128, 1, MOTCHIDU_LENGTHS);
    status = motchidu_run_all(rows[0].code, rows[0].len, NULL, 0, NULL, 0, NULL, 0);
    expect("no calls", status, 0, MOTCHIDU_ACCEPTED, 0);

    served = 0;
    status = verify(rows[0].code, rows[0].len, &at);
    expect_run("no memory", rows[0].code, rows[0].len, 128, 2, MOTCHIDU_MEMORY);
    served = ALL;
    expect("no memory", status, at, MOTCHIDU_MEMORY, NOWHERE);
    return wrong;
}

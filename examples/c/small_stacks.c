/* Each function in a thread with no more stack than motchidu.h asks for, and 8 KiB that a thread takes by
 * itself: where more is needed, the program is ended. Ends with 0 where all answers are right. */
#include <linux/filter.h>
#include <linux/seccomp.h>
#include <motchidu.h>
#include <pthread.h>
#include <stdio.h>
#include <string.h>

enum { DEPTH = 126, LONGEST_FILTER = 4096, BUDGET = 100000 };
enum { SMALL = (24 + 8) * 1024, LARGE = (128 + 8) * 1024 };

static int wrong;

static void expect(const char *name, uint32_t found, uint32_t want) {
    if (found == want)
        return;
    printf("%s: %u, not %u\n", name, found, want);
    wrong++;
}

/* A profile with as many objects in one another as a JSON text may have, or one more. The innermost
 * object has a number, whose digits may be more than a float has. */
static const char *nested(int depth, const char *number) {
    static char text[2048];
    strcpy(text, "{\"defaultAction\":\"SCMP_ACT_ALLOW\",\"more\":");
    for (int i = 0; i < depth; i++)
        strcat(text, "{\"a\":");
    strcat(text, number);
    for (int i = 0; i <= depth; i++)
        strcat(text, "}");
    return text;
}

/* Each function that reads JSON. */
static void expect_read(const char *name, const char *text, uint32_t want) {
    static uint8_t filter[32768];
    static char profile[4096];
    static const struct seccomp_data call;
    char place[128];
    uint32_t decider, value;
    size_t text_len = strlen(text), length, place_length, entry;
    expect(name, motchidu_compile(text, text_len, filter, sizeof filter, &length), want);
    expect(name,
           motchidu_compile_at(text, text_len, filter, sizeof filter, &length, place, sizeof place,
                               &place_length),
           want);
    expect(name,
           motchidu_compile_with(MOTCHIDU_LINUX_6_12, text, text_len, filter, sizeof filter, &length, place,
                                 sizeof place, &place_length),
           want);
    expect(name, motchidu_explain(text, text_len, &call, &decider, &entry, &value), want);
    expect(name, motchidu_resolve(text, text_len, UINT64_MAX, 6, 1, profile, sizeof profile, &length), want);
}

static void *read_all(void *unused) {
    static const char long_number[] = "123456789012345678901234567890.123456789012345678901234567890e-20";
    expect_read("the deepest profile", nested(DEPTH, "1"), MOTCHIDU_ACCEPTED);
    expect_read("a long number in it", nested(DEPTH, long_number), MOTCHIDU_ACCEPTED);
    expect_read("a deeper profile", nested(DEPTH + 1, "1"), MOTCHIDU_NOT_JSON);
    return unused;
}

static void *write_and_look_up(void *unused) {
    static char text[8192];
    char name[32];
    uint32_t number;
    size_t length;
    expect("default", motchidu_default(text, sizeof text, &length), MOTCHIDU_ACCEPTED);
    expect("call_number", motchidu_call_number("faccessat2", 10, &number), MOTCHIDU_ACCEPTED);
    expect("call_name", motchidu_call_name(number, name, sizeof name, &length), MOTCHIDU_ACCEPTED);
    return unused;
}

/* A filter of the greatest length, each of whose instructions but the first and the last is a test, by itself
 * and beside one that returns something else. */
static void *check_and_run(void *unused) {
    static struct sock_filter code[LONGEST_FILTER], other[LONGEST_FILTER];
    static const struct seccomp_data call;
    uint8_t differing[64];
    uint32_t longest, value, steps, values[2];
    size_t at;
    for (size_t i = 1; i < LONGEST_FILTER - 1; i++)
        code[i] = (struct sock_filter)BPF_JUMP(BPF_JMP | BPF_JEQ | BPF_K, i, 0, 0);
    code[0] = (struct sock_filter)BPF_STMT(BPF_LD | BPF_W | BPF_ABS, 0);
    code[LONGEST_FILTER - 1] = (struct sock_filter)BPF_STMT(BPF_RET | BPF_K, SECCOMP_RET_ALLOW);
    expect("verify", motchidu_verify(code, sizeof code, &at), MOTCHIDU_ACCEPTED);
    expect("longest", motchidu_longest(code, sizeof code, &longest, &at), MOTCHIDU_ACCEPTED);
    expect("the longest way", longest, LONGEST_FILTER);
    uint32_t status = motchidu_run_all(code, sizeof code, &call, sizeof call, &value, 1, &steps, 1);
    expect("run_all", status, MOTCHIDU_ACCEPTED);
    expect("its value", value, SECCOMP_RET_ALLOW);
    expect("its steps", steps, LONGEST_FILTER);
    memcpy(other, code, sizeof code);
    other[LONGEST_FILTER - 1].k = SECCOMP_RET_LOG;
    status = motchidu_compare(code, sizeof code, other, sizeof other, true, BUDGET, differing, values);
    expect("compare with another", status, MOTCHIDU_DIFFER);
    expect("what the other returns", values[1], SECCOMP_RET_LOG);
    other[LONGEST_FILTER - 1] = code[LONGEST_FILTER - 1];
    other[1].k = LONGEST_FILTER;
    status = motchidu_compare(code, sizeof code, other, sizeof other, false, BUDGET, differing, values);
    expect("compare with the same by another test", status, MOTCHIDU_BUDGET);
    status = motchidu_compare(code, sizeof code, code, sizeof code, false, 0, differing, values);
    expect("compare with itself", status, MOTCHIDU_SAME);
    return unused;
}

static void in_a_thread(size_t stack, void *(*work)(void *)) {
    pthread_attr_t how;
    pthread_t thread;
    pthread_attr_init(&how);
    if (pthread_attr_setstacksize(&how, stack) || pthread_create(&thread, &how, work, NULL) ||
        pthread_join(thread, NULL)) {
        printf("no thread of %zu bytes\n", stack);
        wrong++;
    }
}

int main(void) {
    in_a_thread(LARGE, read_all);
    in_a_thread(SMALL, write_and_look_up);
    in_a_thread(SMALL, check_and_run);
    return wrong;
}

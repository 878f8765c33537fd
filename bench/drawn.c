/* Drawn lists of names, of which some have conditions, compiled by the library and by others: how many
 * instructions calls with conditions execute on average, how many any number does, and of how many lists
 * another compiler's calls take fewer than the library's. Since Linux 5.11 no filter runs for a call that is
 * always allowed, so the steps of calls with conditions are those that count. */
#include "rules.h"

enum { LISTS = 150, GROUPS = 16, MEASURES = 2, CALLS = 2 * RULES, SOME = 12 };

/* How many of a list's names have conditions, and which. */
enum { TENTH = -2, ONE_TO_SOME = -1 };

static const struct group {
    const char *title;
    int conditional;
    enum asked asked;
} groups[GROUPS] = {{"5", 5, EQUALITIES},
                    {"10", 10, EQUALITIES},
                    {"20", 20, EQUALITIES},
                    {"one in ten", TENTH, EQUALITIES},
                    {"10, any comparisons", 10, COMPARISONS},
                    {"10, any arguments", 10, ARGUMENTS_TOO},
                    {"1, types under a mask", 1, TYPES},
                    {"1, two equalities", 1, PAIRS},
                    {"1, ranges", 1, RANGES},
                    {"1, bits", 1, BITS},
                    {"1, masks", 1, MASKS},
                    {"1, two of four arguments", 1, TWO_ARGUMENTS},
                    {"1, a shared condition", 1, SHARED},
                    {"1 to 12", ONE_TO_SOME, EQUALITIES},
                    {"1 to 12, any comparisons", ONE_TO_SOME, COMPARISONS},
                    {"1 to 12, any arguments", ONE_TO_SOME, ARGUMENTS_TOO}};

struct calls {
    struct seccomp_data data[CALLS];
    int count;
};

/* How many names of a list have conditions. */
static int conditional_of(const struct group *group, int list, int names) {
    switch (group->conditional) {
    case TENTH: return names / 10;
    case ONE_TO_SOME: return 1 + list % SOME;
    default: return group->conditional;
    }
}

/* A call whose arguments are what the conditions name. */
static struct seccomp_data named_by(const struct rule *rule) {
    struct seccomp_data call = {.nr = rule->nr, .arch = AUDIT_ARCH_X86_64};
    for (uint32_t i = 0; i < rule->conditions; i++) {
        const struct condition *cond = &rule->when[i];
        call.args[cond->index] = cond->op == MASKED_EQ ? cond->two : cond->value;
    }
    return call;
}

/* For each rule with conditions the call that these name, which passes equalities, and its neighbour. */
static void conditional_calls(struct calls *calls) {
    calls->count = 0;
    for (int i = 0; i < rule_count; i++)
        for (int more = 0; more < 2 && rules[i].conditions > 0; more++) {
            struct seccomp_data call = named_by(&rules[i]);
            call.args[rules[i].when[0].index] += more;
            calls->data[calls->count++] = call;
        }
}

/* The numbers 0 to 450, with arguments 0. */
static void numbered_calls(struct calls *calls) {
    for (calls->count = 0; calls->count < NUMBERS; calls->count++)
        calls->data[calls->count] = (struct seccomp_data){.nr = calls->count, .arch = AUDIT_ARCH_X86_64};
}

static double steps_on(const uint8_t *filter, size_t length, const struct calls *calls) {
    static uint32_t values[CALLS], steps[CALLS];
    uint32_t status = motchidu_run_all(filter, length, (const uint8_t *)calls->data,
                                       calls->count * sizeof *calls->data, values, calls->count, steps,
                                       calls->count);
    if (status != MOTCHIDU_ACCEPTED) {
        fprintf(stderr, "motchidu_run_all: %u\n", status);
        exit(1);
    }
    double sum = 0;
    for (int i = 0; i < calls->count; i++)
        sum += steps[i];
    return sum / calls->count;
}

/* What all lists of a group come to by one compiler. */
struct figures {
    double instructions, steps[MEASURES];
    int fewer[MEASURES], there;
};

static void measure_list(struct figures *all) {
    static struct calls calls[MEASURES];
    static uint8_t filter[32768];
    double ours[MEASURES];
    text_len = json(text);
    conditional_calls(&calls[0]);
    numbered_calls(&calls[1]);
    for (int how = 0; how < COMPILERS; how++) {
        size_t length = compiled(filter, how);
        if (length == 0)
            continue;
        all[how].there = 1;
        all[how].instructions += length / 8.0;
        for (int measure = 0; measure < MEASURES; measure++) {
            double steps = steps_on(filter, length, &calls[measure]);
            ours[measure] = how == MOTCHIDU ? steps : ours[measure];
            all[how].steps[measure] += steps;
            all[how].fewer[measure] += steps < ours[measure];
        }
    }
}

int main(void) {
    printf("| of 100 to 300 names so many have conditions | compiler | instructions | executed by calls with "
           "conditions | lists with fewer | by the numbers 0 to 450 | lists with fewer |\n"
           "|---|---|---|---|---|---|---|\n");
    for (const struct group *group = groups; group < groups + GROUPS; group++) {
        struct figures all[COMPILERS] = {0};
        for (int list = 0; list < LISTS; list++) {
            int wanted = 100 + below(201);
            drawn_names(wanted, conditional_of(group, list, wanted), group->asked);
            measure_list(all);
        }
        for (int how = 0; how < COMPILERS; how++)
            if (all[how].there)
                printf("| %s | %s | %.0f | %.1f | %d | %.1f | %d |\n", group->title, compilers[how],
                       all[how].instructions / LISTS, all[how].steps[0] / LISTS, all[how].fewer[0],
                       all[how].steps[1] / LISTS, all[how].fewer[1]);
    }
    return 0;
}

/* Filters of profiles, compiled by the library, by libseccomp (by its list and by its binary tree) and by
 * gVisor: instructions, how many of them a call executes at most and on average over the numbers 0 to 450
 * with arguments 0, and the time from profile to filter. The library reads its profiles as JSON in that time.
 * A profile in a file NAME.json that is given is compiled by the others from the rules in NAME.rules. */
#include "rules.h"
#include "times.h"

enum { ROUNDS = 101 };

static void row(const char *profile, enum compiler compiler) {
    static uint8_t filter[32768];
    static struct seccomp_data calls[NUMBERS];
    static uint32_t values[NUMBERS], steps[NUMBERS];
    static double times[ROUNDS];
    size_t length = compiled(filter, compiler);
    if (length == 0)
        return;
    for (int i = 0; i < NUMBERS; i++)
        calls[i] = (struct seccomp_data){.nr = i, .arch = AUDIT_ARCH_X86_64};
    uint32_t status =
        motchidu_run_all(filter, length, (uint8_t *)calls, sizeof calls, values, NUMBERS, steps, NUMBERS);
    if (status != MOTCHIDU_ACCEPTED) {
        printf("| %s | %s | %zu | refused %u |\n", profile, compilers[compiler], length / 8, status);
        return;
    }
    uint32_t most = 0;
    double sum = 0;
    for (int i = 0; i < NUMBERS; i++) {
        most = steps[i] > most ? steps[i] : most;
        sum += steps[i];
    }
    for (int i = 0; i < ROUNDS; i++) {
        double before = now_ns(CLOCK_PROCESS_CPUTIME_ID);
        compiled(filter, compiler);
        times[i] = now_ns(CLOCK_PROCESS_CPUTIME_ID) - before;
    }
    printf("| %s | %s | %zu | %u | %.1f | %.0f us |\n", profile, compilers[compiler], length / 8, most,
           sum / NUMBERS, median(times, ROUNDS) / 1e3);
}

static void rows(const char *profile) {
    text_len = json(text);
    for (int compiler = 0; compiler < COMPILERS; compiler++)
        row(profile, compiler);
}

static void file_rows(const char *path) {
    const char *slash = strrchr(path, '/'), *name = slash ? slash + 1 : path;
    char sibling[4096];
    FILE *file = fopen(path, "rb");
    if (!file) {
        perror(path);
        exit(1);
    }
    text_len = fread(text, 1, sizeof text, file);
    fclose(file);
    snprintf(sibling, sizeof sibling, "%.*s.rules", (int)(strlen(path) - strlen(".json")), path);
    int have_rules = rules_from(sibling);
    for (int compiler = 0; compiler < (have_rules ? COMPILERS : 1); compiler++)
        row(name, compiler);
}

int main(int argc, char **argv) {
    printf("| profile | compiler | instructions | executed at most | on average | to compile "
           "|\n|---|---|---|---|---|---|\n");
    runtime_default();
    rows("RuntimeDefault");
    static const int counts[] = {10, 100, 341};
    for (int i = 0; i < 3; i++) {
        char profile[32];
        snprintf(profile, sizeof profile, "%d names", counts[i]);
        some_names(counts[i]);
        rows(profile);
    }
    for (int i = 1; i < argc; i++)
        file_rows(argv[i]);
#ifndef HAS_SECCOMP
    printf("libseccomp: skipped, this machine has no seccomp.h (Debian's libseccomp-dev)\n");
#endif
    return 0;
}

/* Compiles a profile with the calls of each version of Linux, and prints what the filters return on two
 * calls: versions PROFILE. */
#include <inttypes.h>
#include <linux/audit.h>
#include <linux/seccomp.h>
#include <motchidu.h>
#include <stdio.h>

static const struct {
    uint32_t number;
    const char *name;
} versions[] = {
    {MOTCHIDU_LINUX_5_8, "Linux 5.8"},
    {MOTCHIDU_LINUX_6_12, "Linux 6.12"},
    {2, "version 2"},
};

static const struct seccomp_data calls[] = {
    {.nr = 449, .arch = AUDIT_ARCH_X86_64}, /* futex_waitv, which Linux 5.8 does not have */
    {.nr = 437, .arch = AUDIT_ARCH_X86_64}, /* openat2 */
};

static char text[262144 + 1]; /* one more than a profile has, so that a longer file is refused */
static uint8_t filter[32768];

static enum motchidu_status judge(uint32_t version, size_t text_len, uint32_t values[2]) {
    char place[128];
    uint32_t steps[2];
    size_t length, place_length;
    enum motchidu_status status = motchidu_compile_with(version, text, text_len, filter, sizeof filter,
                                                        &length, place, sizeof place, &place_length);
    if (status != MOTCHIDU_ACCEPTED)
        return status;
    return motchidu_run_all(filter, length, calls, sizeof calls, values, 2, steps, 2);
}

int main(int argc, char **argv) {
    FILE *file = argc == 2 ? fopen(argv[1], "rb") : NULL;
    if (!file) {
        fprintf(stderr, "usage: versions PROFILE\n");
        return 2;
    }
    size_t length = fread(text, 1, sizeof text, file);
    fclose(file);
    for (size_t i = 0; i < sizeof versions / sizeof *versions; i++) {
        uint32_t values[2];
        enum motchidu_status status = judge(versions[i].number, length, values);
        if (status == MOTCHIDU_ACCEPTED)
            printf("%s: futex_waitv %08" PRIx32 ", openat2 %08" PRIx32 "\n", versions[i].name, values[0],
                   values[1]);
        else
            printf("%s: refused %s\n", versions[i].name, motchidu_status_text(status));
    }
    return 0;
}

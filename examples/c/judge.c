/* Reads a filter, checks it, and prints what it returns on three calls: judge FILTER */
#include <linux/audit.h>
#include <linux/seccomp.h>
#include <motchidu.h>
#include <stdio.h>

int main(int argc, char **argv) {
    uint8_t filter[32768 + 1]; /* one more than the longest, so that a longer file is refused */
    FILE *file = argc == 2 ? fopen(argv[1], "rb") : NULL;
    if (!file) {
        fprintf(stderr, "usage: judge FILTER\n");
        return 2;
    }
    size_t len = fread(filter, 1, sizeof filter, file);
    fclose(file);

    size_t at = 0;
    enum motchidu_status status = motchidu_verify(filter, len, &at);
    if (status != MOTCHIDU_ACCEPTED) {
        printf("refused %s at %zu\n", motchidu_status_text(status), at);
        return 1;
    }

    /* read of x86-64, the same call of the 32-bit table, and an empty one */
    struct seccomp_data calls[3] = {{.nr = 0, .arch = AUDIT_ARCH_X86_64}, {.nr = 3, .arch = AUDIT_ARCH_I386}};
    uint32_t values[3], steps[3];
    status = motchidu_run_all(filter, len, calls, sizeof calls, values, 3, steps, 3);
    for (int i = 0; status == MOTCHIDU_ACCEPTED && i < 3; i++)
        printf("%08x in %u steps\n", values[i], steps[i]);
    return status != MOTCHIDU_ACCEPTED;
}

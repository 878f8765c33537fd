/* Prints what decides calls under a profile, by their names, without arguments: explain PROFILE NAME..
 * A PROFILE of - is RuntimeDefault. */
#include <inttypes.h>
#include <motchidu.h>
#include <stdio.h>
#include <string.h>

static char text[262144 + 1]; /* one more than a profile has, so that a longer file is refused */

/* The profile in a file, or RuntimeDefault for -. */
static int read_profile(const char *path, size_t *length) {
    if (strcmp(path, "-") == 0)
        return motchidu_default(text, sizeof text, length) == MOTCHIDU_ACCEPTED;
    FILE *file = fopen(path, "rb");
    if (!file)
        return 0;
    *length = fread(text, 1, sizeof text, file);
    fclose(file);
    return 1;
}

/* Prints why the text is refused, and where in it. */
static void print_refusal(size_t length) {
    static uint8_t filter[32768];
    char place[128];
    size_t filter_length, place_length = 0;
    enum motchidu_status status = motchidu_compile_at(text, length, filter, sizeof filter, &filter_length,
                                                      place, sizeof place, &place_length);
    printf("refused %s", motchidu_status_text(status));
    if (place_length > 0)
        printf(" at %.*s", (int)place_length, place);
    printf("\n");
}

static enum motchidu_status explain(size_t length, const char *name) {
    static const uint64_t args[6];
    uint32_t number, decider, value;
    size_t entry = 0;
    if (motchidu_call_number(name, strlen(name), &number) != MOTCHIDU_ACCEPTED) {
        printf("%s: no such call\n", name);
        return MOTCHIDU_UNKNOWN_CALL;
    }
    enum motchidu_status status = motchidu_explain_name(MOTCHIDU_LINUX_5_8, text, length, name, strlen(name), args,
                                                        &decider, &entry, &value);
    if (status != MOTCHIDU_ACCEPTED)
        print_refusal(length);
    else if (decider == MOTCHIDU_BY_ENTRY)
        printf("%s: %08" PRIx32 " by syscalls[%zu]\n", name, value, entry);
    else
        printf("%s: %08" PRIx32 " by defaultAction\n", name, value);
    return status;
}

int main(int argc, char **argv) {
    size_t length;
    if (argc < 3 || !read_profile(argv[1], &length)) {
        fprintf(stderr, "usage: explain PROFILE NAME..\n");
        return 2;
    }
    int refused = 0;
    for (int i = 2; i < argc; i++)
        refused |= explain(length, argv[i]) != MOTCHIDU_ACCEPTED;
    return refused;
}

/* Confines a child by a profile, in the running kernel: confine PROFILE. The child prints what comes of four
 * calls. Ends with 77 where the kernel takes no filter. */
#include <errno.h>
#include <linux/filter.h>
#include <linux/seccomp.h>
#include <motchidu.h>
#include <stdio.h>
#include <string.h>
#include <sys/personality.h>
#include <sys/prctl.h>
#include <sys/stat.h>
#include <sys/syscall.h>
#include <sys/wait.h>
#include <unistd.h>

enum { SKIPPED = 77 };

static void tell(const char *call, long result) {
    if (result < 0)
        printf("%s: errno %d\n", call, errno);
    else
        printf("%s: goes through\n", call);
}

/* Installs the filter for this process and what it starts. No privilege is needed for that, once it can
 * gain none. */
static int install(const uint8_t *filter, size_t length) {
    struct sock_fprog program = {.len = length / sizeof(struct sock_filter),
                                 .filter = (struct sock_filter *)filter};
    return prctl(PR_SET_NO_NEW_PRIVS, 1, 0, 0, 0) ||
           syscall(SYS_seccomp, SECCOMP_SET_MODE_FILTER, 0, &program);
}

static int confined(const uint8_t *filter, size_t length) {
    if (install(filter, length)) {
        printf("confine: skipped, this kernel takes no filter (%s)\n", strerror(errno));
        return SKIPPED;
    }
    tell("getpid", syscall(SYS_getpid));
    tell("mkdir", mkdir("/tmp/motchidu_confined", 0700));
    tell("personality, asked", personality(0xffffffff));
    tell("personality, set", personality(ADDR_NO_RANDOMIZE));
    return 0;
}

int main(int argc, char **argv) {
    static uint8_t text[262144 + 1]; /* one more than a profile has, so that a longer file is refused */
    static uint8_t filter[32768] __attribute__((aligned(8)));
    FILE *file = argc == 2 ? fopen(argv[1], "rb") : NULL;
    if (!file) {
        fprintf(stderr, "usage: confine PROFILE\n");
        return 2;
    }
    size_t text_len = fread(text, 1, sizeof text, file), length = 0;
    fclose(file);
    uint32_t status = motchidu_compile(text, text_len, filter, sizeof filter, &length);
    if (status != MOTCHIDU_ACCEPTED) {
        printf("refused %u\n", status);
        return 1;
    }
    pid_t child = fork();
    if (child == 0) {
        int ended = confined(filter, length);
        fflush(stdout);
        _exit(ended);
    }
    int ended;
    if (child < 0 || waitpid(child, &ended, 0) < 0 || !WIFEXITED(ended))
        return 1;
    return WEXITSTATUS(ended);
}

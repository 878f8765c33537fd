/* The library beside another one that was made in the same way, and so brings the same functions of the
 * toolchain: here its own copy, whose exports have other names. Ends with 0 where both do their work. */
#include <linux/filter.h>
#include <linux/seccomp.h>
#include <motchidu.h>

uint32_t other_verify(const void *filter, size_t filter_len, size_t *at);

int main(void) {
    static const struct sock_filter code[] = {BPF_STMT(BPF_RET | BPF_K, SECCOMP_RET_ALLOW)};
    return motchidu_verify(code, sizeof code, NULL) != MOTCHIDU_ACCEPTED ||
           other_verify(code, sizeof code, NULL) != MOTCHIDU_ACCEPTED;
}

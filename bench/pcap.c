/* Apart from the other files, since pcap/bpf.h and linux/filter.h define the same names. */
#include <stdint.h>

struct sock_filter;

#if __has_include(<pcap/bpf.h>)
#include <sys/types.h>
#include <pcap/bpf.h>

const int has_pcap = 1;

uint32_t pcap_run(const struct sock_filter *pc, const uint8_t *data) {
    return bpf_filter((const struct bpf_insn *)pc, data, 64, 64);
}
#else
const int has_pcap = 0;

uint32_t pcap_run(const struct sock_filter *pc, const uint8_t *data) {
    (void)pc, (void)data;
    return 0;
}
#endif

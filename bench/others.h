/* The interpreters that the benchmark compares with, each in a file of its own. */
#ifndef OTHERS_H
#define OTHERS_H

#include <linux/filter.h>
#include <linux/seccomp.h>
#include <stdint.h>

/* A plain interpreter, written for the benchmark. */
uint32_t plain_run(const struct sock_filter *pc, const struct seccomp_data *data, uint32_t *steps);

/* libpcap's, over a call whose words have their highest byte first; and whether it is there. */
extern const int has_pcap;
uint32_t pcap_run(const struct sock_filter *pc, const uint8_t *data);

#endif

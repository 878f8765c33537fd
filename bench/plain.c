/*
 * In the style of the kernel's interpreter before it translated filters: a switch on the instruction's
 * code in a loop, no test of what the verifier looked at. It stands apart from the benchmark's file, so
 * that nothing is known of the filter where it is compiled.
 */
#include "others.h"

uint32_t plain_run(const struct sock_filter *pc, const struct seccomp_data *data, uint32_t *steps) {
    const uint8_t *bytes = (const uint8_t *)data;
    uint32_t a = 0, x = 0, words[16], count = 0;
    for (;; pc++) {
        const uint32_t k = pc->k;
        count++;
        switch (pc->code) {
        case BPF_LD | BPF_IMM: a = k; continue;
        case BPF_LD | BPF_W | BPF_ABS: a = *(const uint32_t *)(bytes + k); continue;
        case BPF_LD | BPF_MEM: a = words[k]; continue;
        case BPF_LD | BPF_W | BPF_LEN: a = sizeof *data; continue;
        case BPF_LDX | BPF_IMM: x = k; continue;
        case BPF_LDX | BPF_MEM: x = words[k]; continue;
        case BPF_LDX | BPF_W | BPF_LEN: x = sizeof *data; continue;
        case BPF_ST: words[k] = a; continue;
        case BPF_STX: words[k] = x; continue;
        case BPF_ALU | BPF_ADD | BPF_K: a += k; continue;
        case BPF_ALU | BPF_ADD | BPF_X: a += x; continue;
        case BPF_ALU | BPF_SUB | BPF_K: a -= k; continue;
        case BPF_ALU | BPF_SUB | BPF_X: a -= x; continue;
        case BPF_ALU | BPF_MUL | BPF_K: a *= k; continue;
        case BPF_ALU | BPF_MUL | BPF_X: a *= x; continue;
        case BPF_ALU | BPF_DIV | BPF_K: a /= k; continue;
        case BPF_ALU | BPF_DIV | BPF_X:
            if (x == 0) {
                *steps = count;
                return 0;
            }
            a /= x;
            continue;
        case BPF_ALU | BPF_OR | BPF_K: a |= k; continue;
        case BPF_ALU | BPF_OR | BPF_X: a |= x; continue;
        case BPF_ALU | BPF_AND | BPF_K: a &= k; continue;
        case BPF_ALU | BPF_AND | BPF_X: a &= x; continue;
        case BPF_ALU | BPF_XOR | BPF_K: a ^= k; continue;
        case BPF_ALU | BPF_XOR | BPF_X: a ^= x; continue;
        case BPF_ALU | BPF_LSH | BPF_K: a <<= k; continue;
        case BPF_ALU | BPF_RSH | BPF_K: a >>= k; continue;
        case BPF_ALU | BPF_NEG: a = -a; continue;
        case BPF_JMP | BPF_JA: pc += k; continue;
        case BPF_JMP | BPF_JEQ | BPF_K: pc += a == k ? pc->jt : pc->jf; continue;
        case BPF_JMP | BPF_JEQ | BPF_X: pc += a == x ? pc->jt : pc->jf; continue;
        case BPF_JMP | BPF_JGT | BPF_K: pc += a > k ? pc->jt : pc->jf; continue;
        case BPF_JMP | BPF_JGT | BPF_X: pc += a > x ? pc->jt : pc->jf; continue;
        case BPF_JMP | BPF_JGE | BPF_K: pc += a >= k ? pc->jt : pc->jf; continue;
        case BPF_JMP | BPF_JGE | BPF_X: pc += a >= x ? pc->jt : pc->jf; continue;
        case BPF_JMP | BPF_JSET | BPF_K: pc += a & k ? pc->jt : pc->jf; continue;
        case BPF_JMP | BPF_JSET | BPF_X: pc += a & x ? pc->jt : pc->jf; continue;
        case BPF_MISC | BPF_TAX: x = a; continue;
        case BPF_MISC | BPF_TXA: a = x; continue;
        case BPF_RET | BPF_A:
            *steps = count;
            return a;
        case BPF_RET | BPF_K:
            *steps = count;
            return k;
        default: return 0;
        }
    }
}

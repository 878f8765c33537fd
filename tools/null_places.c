/* motchidu_verify and motchidu_longest as include/motchidu.h has them: at may be NULL. The proved functions,
 * which tools/pack_library.sh renames, always get a place. No header is included, since the toolchain that
 * compiles this file has none. */
typedef __SIZE_TYPE__ size_t;
typedef __UINT32_TYPE__ uint32_t;

uint32_t proved_verify(const void *filter, size_t filter_len, size_t *at);
uint32_t proved_longest(const void *filter, size_t filter_len, uint32_t *longest, size_t *at);

uint32_t motchidu_verify(const void *filter, size_t filter_len, size_t *at);
uint32_t motchidu_longest(const void *filter, size_t filter_len, uint32_t *longest, size_t *at);

uint32_t motchidu_verify(const void *filter, size_t filter_len, size_t *at)
{
    size_t nowhere = 0;
    return proved_verify(filter, filter_len, at ? at : &nowhere);
}

uint32_t motchidu_longest(const void *filter, size_t filter_len, uint32_t *longest, size_t *at)
{
    size_t nowhere = 0;
    return proved_longest(filter, filter_len, longest, at ? at : &nowhere);
}

/* The part of a C library that plain C may call. The image has no other, so what such a call executes is counted with it. */
#include <stddef.h>
#include <stdint.h>

void *memcpy(void *restrict to, const void *restrict from, size_t length);
void *memset(void *to, int byte, size_t length);
int memcmp(const void *left, const void *right, size_t length);

void *memcpy(void *restrict to, const void *restrict from, size_t length)
{
    uint8_t *put = to;
    const uint8_t *take = from;
    while (length >= 8) {
        __builtin_memcpy(put, take, 8);
        put += 8;
        take += 8;
        length -= 8;
    }
    while (length-- > 0)
        *put++ = *take++;
    return to;
}

void *memset(void *to, int byte, size_t length)
{
    uint8_t *put = to;
    uint64_t eight = 0x0101010101010101u * (uint8_t)byte;
    while (length >= 8) {
        __builtin_memcpy(put, &eight, 8);
        put += 8;
        length -= 8;
    }
    while (length-- > 0)
        *put++ = (uint8_t)byte;
    return to;
}

int memcmp(const void *left, const void *right, size_t length)
{
    const uint8_t *a = left, *b = right;
    for (size_t i = 0; i < length; i++)
        if (a[i] != b[i])
            return a[i] - b[i];
    return 0;
}

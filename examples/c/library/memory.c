/* What a compiler may call although no source does. ./fractal build links of it what a program needs. */
#include <stddef.h>
#include <stdint.h>

/* A word of what may have any type. */
typedef uint32_t __attribute__((may_alias)) word;
#define IS_WHOLE(place) (((uintptr_t)(place) & 3) == 0)

void *memcpy(void *to, const void *from, size_t count)
{
    unsigned char *target = to;
    const unsigned char *source = from;
    if (IS_WHOLE(target) && IS_WHOLE(source))
        for (; count >= 4; count -= 4, target += 4, source += 4)
            *(word *)target = *(const word *)source;
    while (count--)
        *target++ = *source++;
    return to;
}

void *memmove(void *to, const void *from, size_t count)
{
    unsigned char *target = to;
    const unsigned char *source = from;
    if (target <= source)
        return memcpy(to, from, count);
    while (count--)
        target[count] = source[count];
    return to;
}

void *memset(void *to, int value, size_t count)
{
    unsigned char *target = to;
    uint32_t filled = (unsigned char)value;
    filled |= filled << 8;
    filled |= filled << 16;
    if (IS_WHOLE(target))
        for (; count >= 4; count -= 4, target += 4)
            *(word *)target = filled;
    while (count--)
        *target++ = value;
    return to;
}

int memcmp(const void *left, const void *right, size_t count)
{
    const unsigned char *one = left, *other = right;
    for (; count--; one++, other++)
        if (*one != *other)
            return *one - *other;
    return 0;
}

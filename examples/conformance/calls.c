/* Structs, many arguments, and a variable number of them are passed and returned. */
#include "task.h"
// image: task start args 1
// image: window seen
// expect: end normal
// expect: words 3 4 55 60 10

#include <stdarg.h>
struct pair { uint32_t a, b; };
struct large { uint32_t words[5]; };
uint32_t seen[5];
static __attribute__((noinline)) struct pair swapped(struct pair given) { return (struct pair){given.b, given.a}; }
static __attribute__((noinline)) struct large filled(uint32_t first)
{
    return (struct large){{first, first + 1, first + 2, first + 3, first + 4}};
}
static __attribute__((noinline)) uint32_t ten(uint32_t a, uint32_t b, uint32_t c, uint32_t d, uint32_t e, uint32_t f,
                                              uint32_t g, uint32_t h, uint32_t i, uint32_t j)
{
    return a + b + c + d + e + f + g + h + i + j;
}
static __attribute__((noinline)) uint32_t several(uint32_t count, ...)
{
    va_list all;
    uint32_t sum = 0;
    va_start(all, count);
    while (count--)
        sum += va_arg(all, uint32_t);
    va_end(all);
    return sum;
}
TASK(start, uint32_t n)
{
    struct pair two = swapped((struct pair){n + 3, n + 2});
    struct large five = filled(n + 9);
    seen[0] = two.a, seen[1] = two.b;
    seen[2] = ten(n, 2, 3, 4, 5, 6, 7, 8, 9, 10);
    seen[3] = five.words[0] + five.words[1] + five.words[2] + five.words[3] + five.words[4];
    seen[4] = several(4, n, 2, 3, 4);
}

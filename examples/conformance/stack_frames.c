/* Locals and calls that take most of the stack keep their values. */
#include "task.h"
// image: task start
// image: window seen
// expect: end normal
// expect: words 4950

uint32_t seen;
static __attribute__((noinline)) uint32_t sum(const uint32_t *numbers, uint32_t count)
{
    uint32_t all = 0;
    for (uint32_t k = 0; k < count; k++)
        all += numbers[k];
    return all;
}
TASK(start, uint32_t first)
{
    uint32_t numbers[100];
    for (uint32_t k = 0; k < 100; k++)
        numbers[k] = first + k;
    seen = sum(numbers, 100);
}

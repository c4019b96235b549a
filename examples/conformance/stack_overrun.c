/* A recursion that is too deep traps below the stack. */
#include "task.h"
// image: task start args 500
// expect: end trap 7

static __attribute__((noinline)) uint32_t deep(volatile uint32_t *before, uint32_t n)
{
    volatile uint32_t own[4] = {n};
    return n == 0 ? before[0] : deep(own, n - 1) + own[0];
}
TASK(start, uint32_t n)
{
    volatile uint32_t own[1] = {n};
    emit(deep(own, n));
}

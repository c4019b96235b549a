/* Locals and variables are aligned as ilp32 wants, the stack at multiples of 16. */
#include "task.h"
// image: task start
// image: window seen
// expect: end normal
// expect: words 0 0 0

uint32_t seen[3] = {1, 1, 1};
uint8_t odd = 1;
uint64_t wide = 2;
TASK(start)
{
    _Alignas(16) volatile uint8_t own[16];
    volatile uint64_t local = wide;
    own[0] = odd;
    seen[0] = (uint32_t)own & 15;
    seen[1] = (uint32_t)&local & 7;
    seen[2] = (uint32_t)&wide & 7;
}

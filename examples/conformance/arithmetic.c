/* Sums, shifts and comparisons, with sign and without. */
#include "task.h"
// image: task start args 0xffffffff 1
// image: window seen
// expect: end normal
// expect: words 0xfffffffe 0xfffffffc 0x7ffffffe 0xffffffff 1 0 0x80000000 0x12345fff

uint32_t seen[8];
TASK(start, uint32_t a, uint32_t b)
{
    seen[0] = a + a;
    seen[1] = a << 2;
    seen[2] = (a - b) >> 1 & 0x7FFFFFFE;
    seen[3] = (uint32_t)((int32_t)(a - b) >> 1);
    seen[4] = (int32_t)a < (int32_t)b;
    seen[5] = a < b;
    seen[6] = (b << 31) ^ (a + b);
    seen[7] = b * 0x12345FFF;
}

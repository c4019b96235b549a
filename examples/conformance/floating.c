/* Floating-point numbers, which are calls. */
#include "task.h"
// image: task start args 10 1
// image: window seen
// expect: end normal
// expect: words 7 0x40490fd0 2 1 3

uint32_t seen[5];
TASK(start, uint32_t a, uint32_t b)
{
    volatile float quarter = 0.25f;
    volatile double half = 0.5;
    union { float number; uint32_t word; } pi;
    seen[0] = (uint32_t)((double)a * half + 2.0);
    pi.number = 3.14159f;
    pi.number *= (float)b;
    seen[1] = pi.word;
    seen[2] = (uint32_t)(quarter * 8.0f);
    seen[3] = quarter < half;
    seen[4] = (uint32_t)(int32_t)(3.99 * (double)b);
}

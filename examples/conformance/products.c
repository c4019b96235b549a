/* Products, quotients and remainders, which are calls. */
#include "task.h"
// image: task start args 1000000 7
// image: window seen
// expect: end normal
// expect: words 4000000000 142857 1 0xfffffff9 0xffffffff 333333 0

uint32_t seen[7];
TASK(start, uint32_t a, uint32_t b)
{
    seen[0] = a * 4000;
    seen[1] = a / b;
    seen[2] = a % b;
    seen[3] = (uint32_t)(-(int32_t)a / 142857);
    seen[4] = (uint32_t)(-(int32_t)a % (int32_t)b);
    seen[5] = a / 3;
    seen[6] = a % 10;
}

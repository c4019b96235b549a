/* A task finds its three arguments and its timestamp. */
#include "task.h"
// image: task start ts 7 args 11 22 33
// image: window seen
// expect: end normal
// expect: words 11 22 33 7

uint32_t seen[4];
TASK(start, uint32_t a, uint32_t b, uint32_t c, uint32_t ts)
{
    seen[0] = a, seen[1] = b, seen[2] = c, seen[3] = ts;
}

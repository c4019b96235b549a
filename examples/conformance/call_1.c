/* A child in the own domain has its entry, timestamp and arguments; no register changes. */
#include "task.h"
// image: task start
// image: window seen
// expect: end normal
// expect: words 5 6 7 9 1

uint32_t seen[5];
TASK(child, uint32_t a, uint32_t b, uint32_t c, uint32_t ts)
{
    seen[0] = a, seen[1] = b, seen[2] = c, seen[3] = ts;
}
TASK(start, uint32_t a, uint32_t b, uint32_t c, uint32_t ts)
{
    enqueue(child, ts + 9, a + 5, b + 6, c + 7, .hint = 3);
    seen[4] = a + b + c + ts + 1;
}

/* Domains are 16 deep. */
#include "task.h"
// image: task start
// image: window seen
// expect: end normal
// expect: words 16

uint32_t seen;
TASK(start, uint32_t depth)
{
    seen = depth + 1;
    if (depth == 15)
        return;
    make_subdomain(ORDERED);
    enqueue_sub(start, 0, depth + 1);
}

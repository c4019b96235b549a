/* An unordered subdomain takes each timestamp as 0. */
#include "task.h"
// image: task start
// image: window seen
// expect: end normal
// expect: words 0 0

uint32_t seen[2] = {9, 9};
TASK(child, uint32_t place, uint32_t, uint32_t, uint32_t ts) { seen[place] = ts; }
TASK(start)
{
    make_subdomain(UNORDERED);
    enqueue_sub(child, 7, 0);
    enqueue_sub(child, 3, 1);
}

/* A subdomain at depth 16. */
#include "task.h"
// image: task start
// expect: end trap 14
// expect: output abcdefghijklmno

TASK(start, uint32_t depth)
{
    emit('a' + depth);
    make_subdomain(ORDERED);
    enqueue_sub(start, 0, depth + 1);
}

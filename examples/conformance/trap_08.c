/* A condition that doesn't hold; what the task did before leaves nothing. */
#include "task.h"
// image: task start
// image: window seen
// expect: end trap 8
// expect: words 4
// expect: output

uint32_t seen = 4;
TASK(start, uint32_t n)
{
    seen = 5;
    emit('a');
    require(n == 1);
}

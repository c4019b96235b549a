/* A 257th byte. */
#include "task.h"
// image: task start
// expect: end trap 16

TASK(start)
{
    for (uint32_t k = 0; k < 257; k++)
        emit('a');
}

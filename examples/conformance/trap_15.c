/* A 257th child. */
#include "task.h"
// image: task start
// expect: end trap 15

TASK(leaf) { }
TASK(start)
{
    for (uint32_t k = 0; k < 257; k++)
        enqueue(leaf, 0);
}

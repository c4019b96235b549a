/* 256 children are made and run. */
#include "task.h"
// image: task start
// image: window seen
// expect: end normal
// expect: words 256

uint32_t seen;
TASK(leaf) { seen++; }
TASK(start)
{
    for (uint32_t k = 0; k < 256; k++)
        enqueue(leaf, k);
}

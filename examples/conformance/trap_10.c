/* A child in the past. */
#include "task.h"
// image: task start ts 5
// expect: end trap 10

TASK(start, uint32_t, uint32_t, uint32_t, uint32_t ts) { enqueue(start, ts - 1); }

/* A child above the root domain. */
#include "task.h"
// image: task start
// expect: end trap 13

TASK(start) { enqueue_super(start, 0); }

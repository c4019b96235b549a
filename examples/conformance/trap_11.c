/* A child of a subdomain that wasn't made. */
#include "task.h"
// image: task start
// expect: end trap 11

TASK(start) { enqueue_sub(start, 0); }

/* A jump to an address plus 2. */
#include "task.h"
// image: task start args start
// expect: end trap 3

TASK(start, uint32_t place) { ((void (*)(void))(place + 2))(); }

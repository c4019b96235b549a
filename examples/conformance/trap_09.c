/* A call of a number that no call has. */
#include "task.h"
// image: task start
// expect: end trap 9

TASK(start) { TASK_CALL(6, 0); }

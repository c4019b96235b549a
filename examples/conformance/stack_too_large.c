/* A frame beyond the stack is refused. */
#include "task.h"
// image: task start
// expect: refused the task `start` needs

TASK(start, uint32_t n)
{
    volatile uint32_t own[300];
    own[n] = n;
    emit(own[n]);
}

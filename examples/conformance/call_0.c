/* A task is ended from the depth of its calls, and nothing after it is done. */
#include "task.h"
// image: task start
// image: window seen
// expect: end normal
// expect: words 1
// expect: output a

uint32_t seen;
static __attribute__((noinline)) void inner(void)
{
    seen = 1;
    end_task();
}
static __attribute__((noinline)) void outer(void)
{
    inner();
    seen = 2;
}
TASK(start)
{
    emit('a');
    outer();
    emit('b');
}

/* A subdomain comes right after its task, with timestamps of its own. */
#include "task.h"
// image: task start ts 5
// expect: end normal
// expect: output abcd

TASK(put, uint32_t letter) { emit(letter); }
TASK(start, uint32_t, uint32_t, uint32_t, uint32_t ts)
{
    emit('a');
    enqueue(put, ts, 'd');
    make_subdomain(ORDERED);
    enqueue_sub(put, 1, 'c');
    enqueue_sub(put, 0, 'b');
}

/* A child in the superdomain comes after all of the subdomain. */
#include "task.h"
// image: task start ts 5
// expect: end normal
// expect: output abc

TASK(put, uint32_t letter) { emit(letter); }
TASK(inner)
{
    enqueue_super(put, 5, 'c');
    enqueue(put, 9, 'b');
    emit('a');
}
TASK(start)
{
    make_subdomain(ORDERED);
    enqueue_sub(inner, 0);
}

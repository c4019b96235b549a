/* Children run in the order of their timestamps, which are unsigned. */
#include "task.h"
// image: task start
// expect: end normal
// expect: output abc

TASK(put, uint32_t letter) { emit(letter); }
TASK(start)
{
    enqueue(put, 0xFFFFFFFF, 'c');
    enqueue(put, 0x7FFFFFFF, 'a');
    enqueue(put, 0x80000000, 'b');
}

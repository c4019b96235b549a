/* The last byte of 16,777,216 can be stored to. */
#include "task.h"
// image: task start args all 16777215
// expect: end normal
// expect: output a

uint8_t all[16777216];
TASK(start, volatile uint8_t *place, uint32_t last)
{
    place[last] = 'a';
    emit(place[last]);
}

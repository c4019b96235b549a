/* A load right after the end of the data. */
#include "task.h"
// image: task start args x
// image: data 8
// expect: end trap 5

uint32_t x[2];
TASK(start, const volatile uint32_t *place) { emit(place[2]); }

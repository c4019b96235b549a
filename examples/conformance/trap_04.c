/* A word is loaded at an odd address. */
#include "task.h"
// image: task start args x
// expect: end trap 4

uint32_t x[2];
TASK(start, const volatile uint8_t *place) { emit(*(const volatile uint32_t *)(place + 1)); }

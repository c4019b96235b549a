/* A half is stored at an odd address. */
#include "task.h"
// image: task start args x
// expect: end trap 6

uint32_t x[2];
TASK(start, volatile uint8_t *place) { *(volatile uint16_t *)(place + 1) = 3; }

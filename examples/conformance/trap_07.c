/* A store to a constant, which is in the text. */
#include "task.h"
// image: task start args table
// expect: end trap 7

const uint32_t table[2] = {1, 2};
TASK(start, uint32_t place) { *(volatile uint32_t *)place = table[place & 1]; }

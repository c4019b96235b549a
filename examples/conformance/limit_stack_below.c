/* A store right below the stack. */
#include "task.h"
// image: task start
// expect: end trap 7

TASK(start, uint32_t value) { *(volatile uint32_t *)0x1FFFFFFC = value; }

/* A load right above the stack. */
#include "task.h"
// image: task start
// expect: end trap 5

TASK(start) { emit(*(volatile uint32_t *)0x20000400); }

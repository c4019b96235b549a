/* A word of zeros is no instruction. */
#include "task.h"
// image: task start
// expect: end trap 2

TASK(start) { __asm__ volatile(".word 0"); }

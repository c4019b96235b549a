/* A call through a null pointer fetches at address 0. */
#include "task.h"
// image: task start
// expect: end trap 1

TASK(start, uint32_t nowhere) { ((void (*)(void))nowhere)(); }

/* Constants of more than 65,536 words are refused. */
#include "task.h"
// image: task start
// expect: refused words of text are more than an image may have

extern const uint32_t table[65536];
const uint32_t table[65536] = {1};
TASK(start, uint32_t place) { emit(((const volatile uint32_t *)table)[place]); }

/* Constants that fill most of the 65,536 words of the text are read to the last. */
#include "task.h"
// image: task start args 64999
// image: window seen
// expect: end normal
// expect: words 0xc0ffee

#define WORDS 65000
extern const uint32_t table[WORDS];
const uint32_t table[WORDS] = {[WORDS - 1] = 0xC0FFEE};
uint32_t seen;
TASK(start, uint32_t place) { seen = ((const volatile uint32_t *)table)[place]; }

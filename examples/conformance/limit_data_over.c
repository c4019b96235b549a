/* One byte more of data is refused. */
#include "task.h"
// image: task start args all
// expect: refused bytes of data are more than an image may have

uint8_t all[16777217];
TASK(start, volatile uint8_t *place) { emit(*place); }

/* Initial data, constants and zeros are where the program looks for them. */
#include "task.h"
// image: task start args 1
// image: window seen
// expect: end normal
// expect: words 42 7 0 104 3
// expect: output hi

uint32_t given = 42, zero;
static const uint32_t table[4] = {4, 5, 6, 7};
static uint32_t kept[2] = {1, 2};
uint32_t seen[5];
static const char *const texts[] = {"ho", "hi"};
TASK(start, uint32_t one)
{
    seen[0] = given;
    seen[1] = ((const volatile uint32_t *)table)[3];
    seen[2] = zero;
    seen[3] = (uint32_t)texts[one][0];
    kept[0] += one;
    seen[4] = kept[0] + kept[1] - 1;
    emit_text(texts[one]);
}

// Twelve numbers are counted by bins of ten, and added up; then each count is doubled. The result is wrong: a bug is
// planted here, and docs/guide/DEBUGGER.md traces it.
#include "task.h"
// image: root ordered
// image: task start ts 0
// image: window result

#define NUMBERS 12
#define BINS 4

static const uint32_t numbers[NUMBERS] = {3, 14, 15, 9, 26, 35, 8, 31, 22, 38, 6, 13};
struct { uint32_t bins[BINS], total; } result;

TASK(add, uint32_t number)
{
    result.bins[number / 10] += 1;
    result.total += number;
}

TASK(twice, uint32_t bin)
{
    result.bins[bin] *= 2;
}

TASK(start)
{
    for (uint32_t place = 0; place < NUMBERS; place++)
        enqueue(add, 1, numbers[place]);
    for (uint32_t bin = 0; bin <= BINS; bin++)
        enqueue(twice, 2, bin);
}

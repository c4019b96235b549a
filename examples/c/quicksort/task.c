/* Quicksort. A task parts its range, and has both parts sorted in an unordered subdomain. Where the domains would
   become too deep, it goes on by recursion on its own stack. */
#include "task.h"
// image: root ordered
// image: task fill ts 0
// image: task sort ts 1 args 0 48 0
// image: task show ts 2
// image: window numbers

#define COUNT 48
#define SMALL 6
#define MOST_HALVINGS 4
int32_t numbers[COUNT];

TASK(fill)
{
    uint32_t random = 2463534242;
    for (uint32_t k = 0; k < COUNT; k++) {
        random ^= random << 13, random ^= random >> 17, random ^= random << 5;
        numbers[k] = (int32_t)random >> 24;
    }
}

/* A place such that no number before it is above one from there on. */
static uint32_t part(uint32_t first, uint32_t end)
{
    int32_t middle = numbers[(first + end - 1) / 2];
    uint32_t low = first - 1, high = end;
    for (;;) {
        while (numbers[++low] < middle) {}
        while (numbers[--high] > middle) {}
        if (low >= high)
            return high + 1;
        int32_t held = numbers[low];
        numbers[low] = numbers[high];
        numbers[high] = held;
    }
}

static void sort_here(uint32_t first, uint32_t end)
{
    if (end - first < 2)
        return;
    uint32_t place = part(first, end);
    sort_here(first, place);
    sort_here(place, end);
}

TASK(sort, uint32_t first, uint32_t end, uint32_t halvings)
{
    if (end - first <= SMALL || halvings == MOST_HALVINGS) {
        sort_here(first, end);
        return;
    }
    uint32_t place = part(first, end);
    make_subdomain(UNORDERED);
    enqueue_sub(sort, 0, first, place, halvings + 1, .hint = first);
    enqueue_sub(sort, 0, place, end, halvings + 1, .hint = place);
}

TASK(show)
{
    for (uint32_t k = 1; k < COUNT; k++)
        require(numbers[k - 1] <= numbers[k]);
    emit_text("sorted");
}

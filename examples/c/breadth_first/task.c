/* Breadth-first search of a grid with walls, from its upper left corner. A task visits a place, and its timestamp is
   the place's level: the number of places on a shortest way there. */
#include "task.h"
// image: root ordered
// image: task visit ts 1 args 0
// image: window level

#define WIDTH 6
#define HEIGHT 4
static const char grid[WIDTH * HEIGHT + 1] = "..#..."
                                             "#.#.#."
                                             "....#."
                                             ".##...";
uint8_t level[WIDTH * HEIGHT]; /* 0: not visited */

TASK(visit, uint32_t place, uint32_t, uint32_t, uint32_t ts)
{
    if (level[place] || grid[place] == '#')
        return;
    level[place] = ts;
    uint32_t column = place % WIDTH;
    if (column > 0)
        enqueue(visit, ts + 1, place - 1);
    if (column < WIDTH - 1)
        enqueue(visit, ts + 1, place + 1);
    if (place >= WIDTH)
        enqueue(visit, ts + 1, place - WIDTH);
    if (place < WIDTH * (HEIGHT - 1))
        enqueue(visit, ts + 1, place + WIDTH);
}

/* Wires through a labyrinth of free cells in layers: a breadth-first search from one end of a wire, and after it the way
   back from the other, which takes the cells. */
#include "task.h"
#include "sizes.h"

#define CELLS_OF_A_HINT 16

struct wire { uint32_t from, to; } wires[WIRES];
uint16_t owner[CELLS];        /* a wire's number plus 1; 0: free */
uint16_t steps[WIRES][CELLS]; /* of each wire: how many cells a way to here has; 0: none was found */
uint32_t laid[WIRES];         /* how many cells the wire has; 0: it isn't laid */

/* Lists the cells beside a cell, and hands out how many they are. */
static inline uint32_t beside(uint32_t cell, uint32_t list[6])
{
    uint32_t count = 0, x = cell % WIDTH, y = cell / WIDTH % WIDTH;
    if (x > 0)
        list[count++] = cell - 1;
    if (x < WIDTH - 1)
        list[count++] = cell + 1;
    if (y > 0)
        list[count++] = cell - WIDTH;
    if (y < WIDTH - 1)
        list[count++] = cell + WIDTH;
    if (cell >= LAYER)
        list[count++] = cell - LAYER;
    if (cell + LAYER < CELLS)
        list[count++] = cell + LAYER;
    return count;
}

/* Takes the cells of a wire's shortest way, from its end back to its start. */
static inline void trace_wire(uint32_t wire)
{
    uint32_t cell = wires[wire].to, left = steps[wire][cell];
    laid[wire] = left;
    while (left--) {
        owner[cell] = wire + 1;
        uint32_t list[6], count = beside(cell, list), k = 0;
        while (left && steps[wire][list[k]] != left) {
            k++;
            require(k < count);
        }
        cell = list[k];
    }
}

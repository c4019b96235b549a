/* The root is ordered, and has no subdomain: the wires are laid one after another, each with timestamps of its own for
   the visits of cells and for the way back. */
#include "wires.h"
// image: root ordered
// image: task feed
// image: data wires wires.bin

#define TIMESTAMPS (CELLS + 2)

TASK(reach, uint32_t cell, uint32_t wire, uint32_t, uint32_t ts)
{
    if (owner[cell] || steps[wire][cell] || steps[wire][wires[wire].to])
        return;
    steps[wire][cell] = ts - wire * TIMESTAMPS;
    uint32_t list[6], count = beside(cell, list);
    for (uint32_t k = 0; k < count; k++)
        enqueue(reach, ts + 1, list[k], wire, .hint = list[k] / CELLS_OF_A_HINT);
}

TASK(trace, uint32_t wire)
{
    trace_wire(wire);
}

TASK(feed)
{
    for (uint32_t wire = 0; wire < WIRES; wire++) {
        enqueue(reach, wire * TIMESTAMPS + 1, wires[wire].from, wire, .hint = wires[wire].from / CELLS_OF_A_HINT);
        enqueue(trace, wire * TIMESTAMPS + CELLS + 1, wire);
    }
}

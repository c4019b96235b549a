/* The root is unordered: a task lays a wire. Its subdomain is ordered: a task for each visit of a cell, and at last one
   for the way back. For all others these are one step. */
#include "wires.h"
// image: root unordered
// image: task feed
// image: data wires wires.bin

TASK(reach, uint32_t cell, uint32_t wire, uint32_t, uint32_t ts)
{
    if (owner[cell] || steps[wire][cell] || steps[wire][wires[wire].to])
        return;
    steps[wire][cell] = ts;
    uint32_t list[6], count = beside(cell, list);
    for (uint32_t k = 0; k < count; k++)
        enqueue(reach, ts + 1, list[k], wire, .hint = list[k] / CELLS_OF_A_HINT);
}

TASK(trace, uint32_t wire)
{
    trace_wire(wire);
}

TASK(lay, uint32_t wire)
{
    make_subdomain(ORDERED);
    enqueue_sub(reach, 1, wires[wire].from, wire, .hint = wires[wire].from / CELLS_OF_A_HINT);
    enqueue_sub(trace, CELLS + 1, wire);
}

TASK(feed)
{
    for (uint32_t wire = 0; wire < WIRES; wire++)
        enqueue(lay, 0, wire, .hint = wire);
}

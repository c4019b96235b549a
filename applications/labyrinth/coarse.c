/* The root is unordered, and has no subdomain: the task that lays a wire searches all cells itself. */
#include "wires.h"
// image: root unordered
// image: task feed
// image: data wires wires.bin

uint16_t waiting[WIRES][CELLS]; /* of each wire the cells that its search has reached, in its order */

TASK(lay, uint32_t wire)
{
    uint16_t *own = steps[wire], *queue = waiting[wire];
    uint32_t reached = 0, from = wires[wire].from, target = wires[wire].to;
    if (owner[from] || owner[target])
        return;
    own[from] = 1;
    queue[reached++] = from;
    for (uint32_t place = 0; place < reached && !own[target]; place++) {
        uint32_t cell = queue[place], next = own[cell] + 1, list[6], count = beside(cell, list);
        for (uint32_t k = 0; k < count; k++)
            if (!own[list[k]] && !owner[list[k]]) {
                own[list[k]] = next;
                queue[reached++] = list[k];
            }
    }
    trace_wire(wire);
}

TASK(feed)
{
    for (uint32_t wire = 0; wire < WIRES; wire++)
        enqueue(lay, 0, wire, .hint = wire);
}

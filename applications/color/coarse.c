/* Colours of a graph, such that neighbours differ. Each node has a task, which takes the least colour that no neighbour
   has yet. Nodes of many neighbours come first: the timestamp is a node's place in that order. */
#include "task.h"
#include "sizes.h"
// image: root ordered
// image: task begin
// image: data first first.bin
// image: data adjacent adjacent.bin
// image: data order order.bin

#define MOST_COLOURS 256
#define NODES_OF_A_HINT 16

/* The neighbours of a node are those in `adjacent` from its own place in `first` up to the next node's. */
uint32_t first[NODES + 1], adjacent[EDGES], order[NODES];
uint32_t colour[NODES]; /* from 1 on; 0: none yet */

TASK(pick, uint32_t node)
{
    uint32_t taken[MOST_COLOURS / 32] = {0};
    for (uint32_t e = first[node], end = first[node + 1]; e < end; e++) {
        uint32_t other = colour[adjacent[e]];
        if (other)
            taken[(other - 1) / 32] |= 1u << (other - 1) % 32;
    }
    uint32_t least = 0;
    while (taken[least / 32] >> least % 32 & 1) {
        least++;
        require(least < MOST_COLOURS);
    }
    colour[node] = least + 1;
}

TASK(feed, uint32_t place, uint32_t end)
{
    if (spread(feed, place, place, end))
        return;
    for (; place < end; place++)
        enqueue(pick, place, order[place], .hint = order[place] / NODES_OF_A_HINT);
}

TASK(begin)
{
    enqueue(feed, 0, 0, NODES);
}

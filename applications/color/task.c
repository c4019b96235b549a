/* Colours of a graph, such that neighbours differ. Each node has a task, which takes the least colour that is free for
   it, and a task for each neighbour that comes later forbids it that colour. Nodes of many neighbours come first: the
   timestamp is a node's place in that order. */
#include "task.h"
#include "sizes.h"
// image: root ordered
// image: task begin
// image: data first first.bin
// image: data adjacent adjacent.bin
// image: data order order.bin
// image: data turn turn.bin

#define MOST_COLOURS 256
#define NODES_OF_A_HINT 16
#define PARTS 16u

/* The neighbours of a node are those in `adjacent` from its own place in `first` up to the next node's. `turn` has the
   place of each node in the order. */
uint32_t first[NODES + 1], adjacent[EDGES], order[NODES], turn[NODES];
uint32_t colour[NODES]; /* from 1 on; 0: none yet */
uint32_t taken[NODES][MOST_COLOURS / 32];

TASK(forbid, uint32_t node, uint32_t number)
{
    taken[node][number / 32] |= 1u << number % 32;
}

/* Forbids a colour to the neighbours in a range that come later. A long range is parted. */
TASK(forbid_all, uint32_t edge, uint32_t end, uint32_t number, uint32_t ts)
{
    uint32_t part = (end - edge + PARTS - 1) / PARTS;
    if (part > 1) {
        for (; edge < end; edge += part)
            enqueue(forbid_all, ts, edge, end - edge < part ? end : edge + part, number, .hint = edge / PARTS);
        return;
    }
    for (; edge < end; edge++)
        if (turn[adjacent[edge]] > ts)
            enqueue(forbid, ts, adjacent[edge], number, .hint = adjacent[edge] / NODES_OF_A_HINT);
}

TASK(pick, uint32_t node, uint32_t, uint32_t, uint32_t ts)
{
    uint32_t least = 0;
    while (taken[node][least / 32] >> least % 32 & 1) {
        least++;
        require(least < MOST_COLOURS);
    }
    colour[node] = least + 1;
    if (first[node] < first[node + 1])
        enqueue(forbid_all, ts, first[node], first[node + 1], least, .hint = node / NODES_OF_A_HINT);
}

TASK(feed, uint32_t place, uint32_t end)
{
    if (spread(feed, place, place, end))
        return;
    for (; place < end; place++)
        enqueue(pick, place, order[place], .hint = order[place] / NODES_OF_A_HINT);
}

TASK(begin)
{
    enqueue(feed, 0, 0, NODES);
}

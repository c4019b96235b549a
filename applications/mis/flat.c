/* The root is ordered, and has no subdomain: the timestamp of a node's task is its number, and so is that of the tasks
   which exclude its neighbours. */
#include "nodes.h"
// image: root ordered
// image: task begin
// image: data first first.bin
// image: data adjacent adjacent.bin

TASK(exclude, uint32_t node)
{
    state[node] = EXCLUDED;
}

TASK(visit, uint32_t node)
{
    if (state[node] != OPEN)
        return;
    state[node] = TAKEN;
    for (uint32_t edge = first[node]; edge < first[node + 1]; edge++)
        enqueue(exclude, node, adjacent[edge], .hint = adjacent[edge] / NODES_OF_A_HINT);
}

TASK(feed, uint32_t node, uint32_t end)
{
    if (spread(feed, node, node, end))
        return;
    for (; node < end; node++)
        enqueue(visit, node, node, .hint = node / NODES_OF_A_HINT);
}

TASK(begin)
{
    enqueue(feed, 0, 0, NODES);
}

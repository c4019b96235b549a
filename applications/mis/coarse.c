/* The root is unordered, and has no subdomain: the task of a node excludes its neighbours itself. */
#include "nodes.h"
// image: root unordered
// image: task begin
// image: data first first.bin
// image: data adjacent adjacent.bin

TASK(visit, uint32_t node)
{
    if (state[node] != OPEN)
        return;
    state[node] = TAKEN;
    for (uint32_t edge = first[node]; edge < first[node + 1]; edge++)
        state[adjacent[edge]] = EXCLUDED;
}

TASK(feed, uint32_t node, uint32_t end)
{
    if (spread(feed, 0, node, end))
        return;
    for (; node < end; node++)
        enqueue(visit, 0, node, .hint = node / NODES_OF_A_HINT);
}

TASK(begin)
{
    enqueue(feed, 0, 0, NODES);
}

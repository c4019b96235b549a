/* The root is unordered. A node that is taken excludes its neighbours in an unordered subdomain, a task for each, which
   is one step for all others. */
#include "nodes.h"
// image: root unordered
// image: task begin
// image: data first first.bin
// image: data adjacent adjacent.bin

TASK(exclude, uint32_t node)
{
    state[node] = EXCLUDED;
}

TASK(visit, uint32_t node)
{
    if (state[node] != OPEN)
        return;
    state[node] = TAKEN;
    if (first[node] == first[node + 1])
        return;
    make_subdomain(UNORDERED);
    for (uint32_t edge = first[node]; edge < first[node + 1]; edge++)
        enqueue_sub(exclude, 0, adjacent[edge], .hint = adjacent[edge] / NODES_OF_A_HINT);
}

TASK(feed, uint32_t node, uint32_t end)
{
    if (spread(feed, 0, node, end))
        return;
    for (; node < end; node++)
        enqueue(visit, 0, node, .hint = node / NODES_OF_A_HINT);
}

TASK(begin)
{
    enqueue(feed, 0, 0, NODES);
}

/* The root is unordered. Heights are set anew in an ordered subdomain, a task for each visit of a node, which is one step
   for all others. */
#include "flow.h"
// image: root unordered
// image: task begin
// image: data first first.bin
// image: data to to.bin
// image: data room room.bin
// image: data back back.bin

static inline uint32_t discharge_time(void)
{
    return 0;
}

TASK(raise, uint32_t node, uint32_t end)
{
    if (spread(raise, 0, node, end))
        return;
    for (; node < end; node++)
        height[node] = NODES;
}

/* The timestamp is the height plus 1: all nodes are raised at 0. */
TASK(search, uint32_t node, uint32_t, uint32_t, uint32_t ts)
{
    if (height[node] != NODES || node == SOURCE)
        return;
    height[node] = ts - 1;
    for (uint32_t a = first[node], end = first[node + 1]; a < end; a++)
        if (room[back[a]])
            enqueue(search, ts + 1, to[a], .hint = to[a] / NODES_OF_A_HINT);
}

static void search_all(uint32_t)
{
    searches++;
    make_subdomain(ORDERED);
    enqueue_sub(raise, 0, 0, NODES);
    enqueue_sub(search, 1, SINK);
}

/* The root is ordered, and has no subdomain: nodes are discharged at one timestamp, heights are set anew at the next
   ones, a task for each visit of a node, and from then on nodes are discharged at a timestamp above these. */
#include "flow.h"
// image: root ordered
// image: task begin
// image: data first first.bin
// image: data to to.bin
// image: data room room.bin
// image: data back back.bin

uint32_t epoch; /* when nodes are discharged from now on */

static inline uint32_t discharge_time(void)
{
    return epoch;
}

TASK(raise, uint32_t node, uint32_t end, uint32_t, uint32_t ts)
{
    if (spread(raise, ts, node, end))
        return;
    for (; node < end; node++)
        height[node] = NODES;
}

/* The timestamp is the height above that of the sink. */
TASK(search, uint32_t node, uint32_t base, uint32_t, uint32_t ts)
{
    if (height[node] != NODES || node == SOURCE)
        return;
    height[node] = ts - base;
    for (uint32_t a = first[node], end = first[node + 1]; a < end; a++)
        if (room[back[a]])
            enqueue(search, ts + 1, to[a], base, .hint = to[a] / NODES_OF_A_HINT);
}

static void search_all(uint32_t ts)
{
    searches++;
    epoch = ts + NODES + 3;
    enqueue(raise, ts + 1, 0, NODES);
    enqueue(search, ts + 2, SINK, ts + 2);
}

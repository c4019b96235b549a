/* Shortest paths from one node. A task goes along a road to a node, and its timestamp is the length of the way that it
   came by. Whoever comes first came by a shortest way. */
#include "task.h"
#include "sizes.h"
// image: root ordered
// image: task visit ts 0 args 0
// image: data first first.bin
// image: data roads roads.bin

#define FAR 0xFFFFFFFF
#define NODES_OF_A_HINT 16

/* The roads from a node are those from its own place in `first` up to the next node's. */
uint32_t first[NODES + 1];
struct road { uint32_t to, length; } roads[ROADS];
uint32_t distance[NODES] = {[0 ... NODES - 1] = FAR};

TASK(visit, uint32_t node, uint32_t, uint32_t, uint32_t ts)
{
    if (distance[node] != FAR)
        return;
    distance[node] = ts;
    for (uint32_t r = first[node], end = first[node + 1]; r < end; r++)
        enqueue(visit, ts + roads[r].length, roads[r].to, .hint = roads[r].to / NODES_OF_A_HINT);
}

/* Shortest paths from one node of a graph. A task visits a node, and its timestamp is the length of the way that it
   came by. Tasks come in the order of their timestamps, so the first visit of a node is by a shortest way. */
#include "task.h"
// image: root ordered
// image: task visit ts 0 args 0
// image: window distance

#define NODES 8
#define FAR 0xFFFFFFFF
struct edge { uint32_t to, length; };
static const uint32_t first[NODES + 1] = {0, 3, 5, 7, 9, 11, 13, 14, 14};
static const struct edge edges[] = {
    {1, 7}, {2, 2}, {3, 20}, {3, 3}, {4, 8}, {1, 3}, {4, 9}, {5, 4}, {6, 1}, {5, 1}, {6, 12}, {7, 2}, {6, 2}, {7, 5},
};
uint32_t distance[NODES] = {FAR, FAR, FAR, FAR, FAR, FAR, FAR, FAR};

TASK(visit, uint32_t node, uint32_t, uint32_t, uint32_t ts)
{
    if (distance[node] != FAR)
        return;
    distance[node] = ts;
    for (uint32_t e = first[node]; e < first[node + 1]; e++)
        enqueue(visit, ts + edges[e].length, edges[e].to, .hint = edges[e].to);
}

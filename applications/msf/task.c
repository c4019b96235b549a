/* A spanning forest of least weight, by Kruskal. Each edge has a task, whose timestamp is the edge's weight: it takes
   the edge if that joins two trees. */
#include "task.h"
#include "sizes.h"
// image: root ordered
// image: task begin
// image: data edges edges.bin

#define NODES_OF_A_HINT 16

/* By weight. */
struct edge { uint32_t one, other, weight; } edges[EDGES];
uint32_t parent[NODES]; /* of a node in its tree: its number plus 1; 0: none */
uint8_t is_taken[EDGES];

/* The root of a node's tree. On the way each second node is hung higher. */
static uint32_t root_of(uint32_t node)
{
    for (;;) {
        uint32_t up = parent[node];
        if (!up)
            return node;
        uint32_t above = parent[up - 1];
        if (!above)
            return up - 1;
        parent[node] = above;
        node = above - 1;
    }
}

TASK(join, uint32_t edge)
{
    uint32_t one = root_of(edges[edge].one), other = root_of(edges[edge].other);
    if (one == other)
        return;
    if (one < other)
        parent[other] = one + 1;
    else
        parent[one] = other + 1;
    is_taken[edge] = 1;
}

TASK(feed, uint32_t edge, uint32_t end)
{
    if (spread(feed, edges[edge].weight, edge, end))
        return;
    for (; edge < end; edge++)
        enqueue(join, edges[edge].weight, edge, .hint = edges[edge].one / NODES_OF_A_HINT);
}

TASK(begin)
{
    enqueue(feed, 0, 0, EDGES);
}

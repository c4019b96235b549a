/* Breadth-first search. A task goes along an edge to a node, and its timestamp is the node's level. Whoever comes first
   sets the level, and goes on along all edges of the node. */
#include "task.h"
#include "sizes.h"
// image: root ordered
// image: task visit ts 0 args 0
// image: data first first.bin
// image: data adjacent adjacent.bin

#define UNSEEN 0xFFFFFFFF
#define MOST_CHILDREN 256
#define NODES_OF_A_HINT 16

/* The neighbours of a node are those in `adjacent` from its own place in `first` up to the next node's. */
uint32_t first[NODES + 1], adjacent[EDGES];
uint32_t level[NODES] = {[0 ... NODES - 1] = UNSEEN};

extern task_entry visit;

static inline void visit_all(uint32_t edge, uint32_t end, uint32_t ts)
{
    for (; edge < end; edge++)
        enqueue(visit, ts + 1, adjacent[edge], .hint = adjacent[edge] / NODES_OF_A_HINT);
}

/* The edges of a node that has more of them than a task may have children. */
TASK(part, uint32_t edge, uint32_t end, uint32_t, uint32_t ts)
{
    if (!spread(part, ts, edge, end))
        visit_all(edge, end, ts);
}

TASK(visit, uint32_t node, uint32_t, uint32_t, uint32_t ts)
{
    if (level[node] != UNSEEN)
        return;
    level[node] = ts;
    uint32_t edge = first[node], end = first[node + 1];
    if (end - edge <= MOST_CHILDREN)
        visit_all(edge, end, ts);
    else
        enqueue(part, ts, edge, end, .hint = node / NODES_OF_A_HINT);
}

/* The greatest flow from a source to a sink, by pushing and relabelling: a task discharges a node. Each so many
   relabellings one of them sets all heights anew, by a breadth-first search from the sink. Flow that can't reach the sink
   isn't brought back: what comes to the sink is the greatest flow all the same. */
#include "task.h"
#include "sizes.h"

#define NODES_OF_A_HINT 16
#define RELABELLINGS_BETWEEN NODES

/* The arcs of a node are those from its own place in `first` up to the next node's. An arc leads to a node and has room
   for so much more, and there is one that leads back. */
uint32_t first[NODES + 1], to[ARCS], room[ARCS], back[ARCS];
uint32_t excess[NODES], height[NODES];
uint8_t is_active[NODES];
uint32_t relabellings, searches;

extern task_entry discharge;

/* What each form says: at which timestamp nodes are discharged from now on, and how a task of a timestamp sets all
   heights anew. */
static inline uint32_t discharge_time(void);
static void search_all(uint32_t ts);

/* Has a node discharged, unless a task for that is there. */
static void activate(uint32_t node)
{
    if (node == SINK || node == SOURCE || is_active[node])
        return;
    is_active[node] = 1;
    enqueue(discharge, discharge_time(), node, .hint = node / NODES_OF_A_HINT);
}

static void push(uint32_t arc, uint32_t amount)
{
    room[arc] -= amount;
    room[back[arc]] += amount;
    excess[to[arc]] += amount;
    activate(to[arc]);
}

TASK(discharge, uint32_t node, uint32_t, uint32_t, uint32_t ts)
{
    is_active[node] = 0;
    if (height[node] >= NODES)
        return;
    uint32_t rest = excess[node], least = NODES;
    for (uint32_t a = first[node], end = first[node + 1]; a < end && rest; a++) {
        uint32_t most = room[a], other = height[to[a]];
        if (!most)
            continue;
        if (height[node] == other + 1) {
            uint32_t amount = most < rest ? most : rest;
            push(a, amount);
            rest -= amount;
            if (amount == most)
                continue;
        }
        least = other < least ? other : least;
    }
    excess[node] = rest;
    if (!rest)
        return;
    height[node] = least + 1 < NODES ? least + 1 : NODES;
    if (height[node] < NODES)
        activate(node);
    if (++relabellings >= RELABELLINGS_BETWEEN) {
        relabellings = 0;
        search_all(ts);
    }
}

TASK(start)
{
    for (uint32_t a = first[SOURCE], end = first[SOURCE + 1]; a < end; a++)
        if (room[a])
            push(a, room[a]);
}

TASK(begin)
{
    search_all(0);
    enqueue(start, discharge_time());
}

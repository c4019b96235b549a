/* The shortest way to one node, by A*. A task goes along a road to a node. Its timestamp is the length of the way that
   it came by plus the straight line from there to the target, so that tasks that lead away come late or find the target
   reached. */
#include "task.h"
#include "sizes.h"
// image: root ordered
// image: task begin
// image: data first first.bin
// image: data roads roads.bin
// image: data places places.bin

#define FAR 0xFFFFFFFF
#define NODES_OF_A_HINT 16

/* The roads from a node are those from its own place in `first` up to the next node's. */
uint32_t first[NODES + 1];
struct road { uint32_t to, length; } roads[ROADS];
struct place { int32_t x, y; } places[NODES];
uint32_t distance[NODES] = {[0 ... NODES - 1] = FAR};

/* The root of a square, rounded down. */
static uint32_t root_of(uint32_t square)
{
    uint32_t root = 0;
    for (uint32_t bit = 1u << 30; bit; bit >>= 2) {
        int is_in = square >= root + bit;
        if (is_in)
            square -= root + bit;
        root = (root >> 1) + (is_in ? bit : 0);
    }
    return root;
}

/* The straight line to the target, rounded down. No road is shorter than the line between its ends. */
static uint32_t line_from(uint32_t node)
{
    int32_t x = places[node].x - places[TARGET].x, y = places[node].y - places[TARGET].y;
    return root_of((uint32_t)(x * x) + (uint32_t)(y * y));
}

TASK(visit, uint32_t node, uint32_t way)
{
    if (distance[TARGET] != FAR || distance[node] != FAR)
        return;
    distance[node] = way;
    for (uint32_t r = first[node], end = first[node + 1]; r < end; r++) {
        uint32_t to = roads[r].to, next = way + roads[r].length;
        enqueue(visit, next + line_from(to), to, next, .hint = to / NODES_OF_A_HINT);
    }
}

TASK(begin)
{
    enqueue(visit, line_from(0), 0, 0);
}

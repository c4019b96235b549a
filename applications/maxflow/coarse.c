/* The root is unordered, and has no subdomain: the task that sets heights anew visits all nodes itself. */
#include "flow.h"
// image: root unordered
// image: task begin
// image: data first first.bin
// image: data to to.bin
// image: data room room.bin
// image: data back back.bin

uint32_t waiting[NODES]; /* the nodes that a search has reached, in its order */

static inline uint32_t discharge_time(void)
{
    return 0;
}

static void search_all(uint32_t)
{
    searches++;
    for (uint32_t node = 0; node < NODES; node++)
        height[node] = NODES;
    uint32_t reached = 0;
    height[SINK] = 0;
    waiting[reached++] = SINK;
    for (uint32_t k = 0; k < reached; k++) {
        uint32_t node = waiting[k], next = height[node] + 1;
        for (uint32_t a = first[node], end = first[node + 1]; a < end; a++)
            if (height[to[a]] == NODES && to[a] != SOURCE && room[back[a]]) {
                height[to[a]] = next;
                waiting[reached++] = to[a];
            }
    }
}

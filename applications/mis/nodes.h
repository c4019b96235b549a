/* A set of nodes of which no two are neighbours, and to which no node can be added. Each node has a task, which takes it
   if it is open, and excludes its neighbours. */
#include "task.h"
#include "sizes.h"

#define NODES_OF_A_HINT 16

/* The neighbours of a node are those in `adjacent` from its own place in `first` up to the next node's. */
uint32_t first[NODES + 1], adjacent[EDGES];
enum { OPEN, TAKEN, EXCLUDED };
uint8_t state[NODES];

/* A tree of sums. A task halves its range, and has both halves added up in its subdomain at timestamp 0 and joined
   there at timestamp 1. Where a result goes is an argument. */
#include "task.h"
// image: root unordered
// image: task begin
// image: window total

#define COUNT 64
#define LEAF 8
uint32_t total;
static uint32_t numbers[COUNT], parts[2 * COUNT / LEAF];
extern task_entry show;

TASK(join, uint32_t *to, const uint32_t *left, const uint32_t *right)
{
    *to = *left + *right;
}

/* Below the node k of the tree are the nodes 2k and 2k + 1. */
TASK(add, uint32_t first, uint32_t count, uint32_t node)
{
    uint32_t *to = node == 1 ? &total : &parts[node];
    if (count <= LEAF) {
        uint32_t sum = 0;
        for (uint32_t k = first; k < first + count; k++)
            sum += numbers[k];
        *to = sum;
        return;
    }
    make_subdomain(ORDERED);
    enqueue_sub(add, 0, first, count / 2, 2 * node, .hint = first);
    enqueue_sub(add, 0, first + count / 2, count / 2, 2 * node + 1, .hint = first + count / 2);
    enqueue_sub(join, 1, at(to), at(&parts[2 * node]), at(&parts[2 * node + 1]));
}

TASK(begin)
{
    for (uint32_t k = 0; k < COUNT; k++)
        numbers[k] = k * k;
    make_subdomain(ORDERED);
    enqueue_sub(add, 0, 0, COUNT, 1);
    enqueue_sub(show, 1);
}

TASK(show)
{
    emit_text("sum ");
    emit_number(total);
    emit('\n');
}

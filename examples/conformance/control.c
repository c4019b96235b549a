/* Jump tables, loops, pointers to functions and recursion. */
#include "task.h"
// image: task start args 3 1
// image: window seen
// expect: end normal
// expect: words 8 120 21 5050

uint32_t seen[4];
static __attribute__((noinline)) uint32_t choose(uint32_t n)
{
    switch (n) {
    case 0: return 3;
    case 1: return 1;
    case 2: return 4;
    case 3: return 8;
    case 4: return 5;
    case 5: return 9;
    default: return 2;
    }
}
static uint32_t product(uint32_t n) { return n < 2 ? 1 : n * product(n - 1); }
static uint32_t twice(uint32_t n) { return 2 * n; }
static uint32_t thrice(uint32_t n) { return 3 * n; }
static uint32_t (*const functions[2])(uint32_t) = {twice, thrice};
TASK(start, uint32_t three, uint32_t one)
{
    seen[0] = choose(three);
    seen[1] = product(three + 2);
    seen[2] = functions[one & 1](7);
    for (uint32_t k = 1; k <= 100; k++)
        seen[3] += k;
}

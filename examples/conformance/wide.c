/* Numbers of 64 bits: sums, products, quotients, shifts, and as arguments. */
#include "task.h"
// image: task start args 0xffffffff 1
// image: window seen
// expect: end normal
// expect: words 0 1 0xfffffffe 1 0x55555555 0x55555555 0x34000000 0x12 7

uint32_t seen[9];
static __attribute__((noinline)) uint64_t add(uint32_t first, uint64_t a, uint64_t b) { return a + b + first; }
static void put(uint32_t place, uint64_t value)
{
    seen[place] = (uint32_t)value, seen[place + 1] = (uint32_t)(value >> 32);
}
TASK(start, uint32_t all, uint32_t one)
{
    put(0, (uint64_t)all + one);
    put(2, (uint64_t)all * (one + one));
    put(4, ((uint64_t)all << 32 | all) / (one + 2));
    put(6, (uint64_t)0x1234 << (one + 23));
    seen[8] = (uint32_t)add(one, 2, 4);
}

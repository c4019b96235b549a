/* A packed struct is read and written at any address, without a trap. */
#include "task.h"
// image: task start args 0x12345678 0xdef0
// image: window seen
// expect: end normal
// expect: words 0x12345678 0xdef0 0x55

struct __attribute__((packed)) odd { uint8_t first; uint32_t word; uint16_t half; uint8_t last; };
struct odd odd = {1, 0, 0, 0};
uint32_t seen[3];
TASK(start, uint32_t word, uint32_t half)
{
    volatile struct odd *place = &odd;
    place->word = word;
    place->half = (uint16_t)half;
    place->last = 0x55;
    seen[0] = place->word, seen[1] = place->half, seen[2] = place->last;
}

/* Loads of bytes and halves keep or drop the sign, and stores change no neighbour. */
#include "task.h"
// image: task start args 0x80 0x8000
// image: window seen
// expect: end normal
// expect: words 0xffffff80 0x80 0xffff8000 0x8000 0x11aa3344 0xbbbb3344

uint32_t seen[6];
volatile uint32_t cell = 0x11223344;
TASK(start, uint32_t low, uint32_t high)
{
    volatile uint8_t byte = (uint8_t)low;
    volatile uint16_t half = (uint16_t)high;
    seen[0] = (uint32_t)(int32_t)(int8_t)byte;
    seen[1] = byte;
    seen[2] = (uint32_t)(int32_t)(int16_t)half;
    seen[3] = half;
    ((volatile uint8_t *)&cell)[2] = 0xAA;
    seen[4] = cell;
    ((volatile uint16_t *)&cell)[1] = 0xBBBB;
    seen[5] = cell;
}

/* Structs are copied, filled, compared and moved over themselves. */
#include "task.h"
// image: task start args 12
// image: window seen
// expect: end normal
// expect: words 190 0 1 123

struct many { uint32_t words[20]; };
struct many one, two;
uint32_t seen[4];
static char text[8] = "12345";
TASK(start, uint32_t size)
{
    for (uint32_t k = 0; k < 20; k++)
        one.words[k] = k;
    two = one;
    for (uint32_t k = 0; k < 20; k++)
        seen[0] += two.words[k];
    seen[1] = (uint32_t)__builtin_memcmp(&one, &two, sizeof one);
    __builtin_memset(&two, 1, size);
    seen[2] = two.words[0] == 0x01010101 && two.words[19] == 19;
    __builtin_memmove(text + 2, text, 3);
    seen[3] = (uint32_t)((text[2] - '0') * 100 + (text[3] - '0') * 10 + text[4] - '0');
}

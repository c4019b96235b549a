/* 256 bytes are emitted. */
#include "task.h"
// image: task start
// expect: end normal
// expect: output abababababababababababababababababababababababababababababababababababababababababababababababababababababababababababababababababababababababababababababababababababababababababababababababababababababababababababababababababababababababababababababababab

TASK(start)
{
    for (uint32_t k = 0; k < 256; k++)
        emit('a' + (k & 1));
}

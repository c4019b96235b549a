/* The low byte is emitted, and texts and numbers of the header come out whole. */
#include "task.h"
// image: task start
// expect: end normal
// expect: output az 4294967295 0000beef

TASK(start)
{
    emit(0x100 + 'a');
    emit_text("z ");
    emit_number(0xFFFFFFFF);
    emit(' ');
    emit_hex(0xBEEF);
}

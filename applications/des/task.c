/* A digital circuit, simulated by events. A task toggles one input of a gate. Where the gate's output toggles with it,
   the inputs that read it toggle after the gate's delay. The timestamp is the time. */
#include "task.h"
#include "sizes.h"
// image: root ordered
// image: task apply ts 0 args 0
// image: data gates gates.bin
// image: data first first.bin
// image: data readers readers.bin
// image: data outputs outputs.bin
// image: data numbers numbers.bin

#define GATES_OF_A_HINT 4

/* Bit i of a table is the output for the inputs i. */
struct gate { uint8_t table, delay; } gates[GATES];
/* An input is told by its gate's number times 2, plus which of the gate's inputs it is. Those that read a gate are the
   ones from its own place in `first` up to the next gate's. */
uint32_t first[GATES + 1], readers[READERS];
/* The gates of the bits of each sum, and the numbers that are added in each period: each word is 32 gates of one input,
   from gate 0 on. */
uint32_t outputs[32 * SUMS], numbers[PERIODS][WORDS];

struct state { uint8_t inputs, output; uint16_t toggles; } states[GATES];
uint32_t sums[PERIODS][SUMS];

TASK(toggle, uint32_t input, uint32_t, uint32_t, uint32_t ts)
{
    uint32_t number = input >> 1;
    struct state *state = &states[number];
    uint32_t inputs = state->inputs ^ (1 << (input & 1));
    state->inputs = inputs;
    uint32_t output = gates[number].table >> inputs & 1;
    if (output == state->output)
        return;
    state->output = output;
    state->toggles++;
    uint32_t when = ts + gates[number].delay;
    for (uint32_t r = first[number], end = first[number + 1]; r < end; r++)
        enqueue(toggle, when, readers[r], .hint = (readers[r] >> 1) / GATES_OF_A_HINT);
}

/* A sum at the end of a period. */
TASK(sample, uint32_t period, uint32_t sum)
{
    uint32_t bits = 0;
    for (uint32_t bit = 0; bit < 32; bit++)
        bits |= (uint32_t)states[outputs[32 * sum + bit]].output << bit;
    sums[period][sum] = bits;
}

/* Toggles the bits of a word that differ from those of the period before. */
TASK(drive, uint32_t word, uint32_t period, uint32_t, uint32_t ts)
{
    uint32_t changed = numbers[period][word];
    if (period)
        changed ^= numbers[period - 1][word];
    for (uint32_t gate = 32 * word; changed; gate++, changed >>= 1)
        if (changed & 1)
            enqueue(toggle, ts, gate << 1, .hint = gate / GATES_OF_A_HINT);
}

TASK(apply, uint32_t period, uint32_t, uint32_t, uint32_t ts)
{
    for (uint32_t word = 0; word < WORDS; word++)
        enqueue(drive, ts, word, period, .hint = 32 * word / GATES_OF_A_HINT);
    for (uint32_t sum = 0; sum < SUMS; sum++)
        enqueue(sample, ts + PERIOD - 1, period, sum, .hint = outputs[32 * sum] / GATES_OF_A_HINT);
    if (period + 1 < PERIODS)
        enqueue(apply, ts + PERIOD, period + 1);
}

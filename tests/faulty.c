/*
 * The slow engine with a fault, for host/compare.c to find: where that is compiled with -Dberxundar_slow_load=faulty_load and the
 * like, the calls of this file are made in the place of the engine's. They make those, and then disturb what FAULT in the
 * environment names: the answer or a count of a load; the answer, a number, an entry, a count or a bit of round 2; the answer or a
 * number of an edit. Where it names nothing there is no fault. Likewise -Disatty=terminal and -Dclock=ticking, for a terminal where
 * the environment has TERMINAL, and a clock of two ticks a second.
 */
#undef berxundar_slow_load
#undef berxundar_slow_round
#undef berxundar_slow_edit
#undef berxundar_slow_edit_standing
#undef clock
#include "berxundar.h"

#include <time.h>

char *getenv(const char *name);

#define TABLES                                                                                                              \
    uint64_t *inputs, size_t inputs_length, uint64_t *outputs, size_t outputs_length, uint16_t *current,                     \
        size_t current_length, uint16_t *following, size_t following_length, uint16_t *standing, size_t standing_length,     \
        uint64_t *counts, size_t counts_length
#define LENT                                                                                                                \
    inputs, inputs_length, outputs, outputs_length, current, current_length, following, following_length, standing,          \
        standing_length, counts, counts_length

uint32_t faulty_load(const uint8_t *file, size_t file_length, TABLES);
uint32_t faulty_round(const uint8_t *file, size_t file_length, TABLES, uint64_t time, uint64_t *moved, size_t moved_length);
uint32_t faulty_edit(const uint8_t *file, size_t file_length, TABLES, size_t index, uint64_t number);
uint32_t faulty_edit_standing(const uint8_t *file, size_t file_length, TABLES, size_t index, uint64_t number);

int terminal(int file);
clock_t ticking(void);

int terminal(int file) { return file == 2 && getenv("TERMINAL") != NULL; }

clock_t ticking(void)
{
    static clock_t now;
    return now += CLOCKS_PER_SEC / 2;
}

static int fault(const char *word)
{
    const char *named = getenv("FAULT");
    while (named && *named && *named == *word)
        named++, word++;
    return named && *named == *word;
}

uint32_t faulty_load(const uint8_t *file, size_t file_length, TABLES)
{
    uint32_t answer = berxundar_slow_load(file, file_length, LENT);
    counts[BERXUNDAR_SLOW_COUNT_OUTPUTS] += (uint64_t)fault("load count");
    return fault("load answer") ? ((uint32_t)BERXUNDAR_BAD_FIELDS << 16) + 1 : fault("load accepts") ? 0 : answer;
}

uint32_t faulty_round(const uint8_t *file, size_t file_length, TABLES, uint64_t time, uint64_t *moved, size_t moved_length)
{
    uint32_t answer = berxundar_slow_round(file, file_length, LENT, time, moved, moved_length);
    if (time != 2)
        return answer;
    inputs[0] ^= (uint64_t)fault("first input");
    inputs[1] ^= (uint64_t)fault("second input");
    outputs[2] ^= (uint64_t)fault("third output");
    current[0] = (uint16_t)(fault("entry") ? 1 : fault("entry of nothing") ? 9 : current[0]);
    counts[BERXUNDAR_SLOW_COUNT_INPUTS] += (uint64_t)fault("inputs");
    counts[BERXUNDAR_SLOW_COUNT_CURRENT] += (uint64_t)fault("current");
    counts[BERXUNDAR_SLOW_COUNT_FOLLOWING] += (uint64_t)fault("following");
    counts[BERXUNDAR_SLOW_COUNT_STANDING] += (uint64_t)fault("standing");
    moved[0] ^= (uint64_t)fault("bit") | (uint64_t)fault("last bit") << 63;
    return fault("answer") ? (uint32_t)BERXUNDAR_NO_PATH << 16 : answer;
}

/* A component that the edit refuses is set all the same, or it is set to another number. */
static uint32_t faulty_answer(uint32_t answer, uint64_t *outputs)
{
    outputs[1] ^= (uint64_t)(fault("edit") && answer == 0);
    return fault("edit answer") ? 0 : answer;
}

uint32_t faulty_edit(const uint8_t *file, size_t file_length, TABLES, size_t index, uint64_t number)
{
    return faulty_answer(berxundar_slow_edit(file, file_length, LENT, index, number), outputs);
}

uint32_t faulty_edit_standing(const uint8_t *file, size_t file_length, TABLES, size_t index, uint64_t number)
{
    return faulty_answer(berxundar_slow_edit_standing(file, file_length, LENT, index, number), outputs);
}

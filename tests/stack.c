/*
 * How much stack the calls take, beside what host/berxundar.h says: stack <FILE loads the drawing on standard input and makes each call
 * on it. The stack below is filled with a pattern before a call, and afterwards what the call has written over is counted.
 * Leaves with 1 where a call takes more than is said, or is refused.
 */
#include "berxundar.h"
#include "file.h"
#include "record.h"

#include <stdio.h>

#define ROOM 200000
#define PATTERN 0xa5

static uint8_t bytes[FILE_ROOM];
static size_t length;
static berxundar_net net;
static uint16_t list[BERXUNDAR_NAMES];
static uint16_t order[BERXUNDAR_ORDER];
static uint64_t found, moved[BERXUNDAR_MOVED];
static berxundar_slow_net slow;
static berxundar_single single;
static berxundar_box box;
static uint8_t mended[BERXUNDAR_DAMAGED];
static uint16_t dropped[BERXUNDAR_DROPPED];

static void fill(volatile uint8_t *area)
{
    size_t i;
    for (i = 0; i < ROOM; i++)
        area[i] = PATTERN;
}

/* How many bytes are painted no more, down to the lowest of them. */
static size_t scan(volatile uint8_t *area)
{
    size_t i = 0;
    while (i < ROOM && area[i] == PATTERN)
        i++;
    return ROOM - i;
}

/* Through pointers that the compiler cannot follow, so that each call has a frame of its own and nothing of it is left out. */
static void (*volatile filling)(volatile uint8_t *) = fill;
static size_t (*volatile scanning)(volatile uint8_t *) = scan;

static void paint(void)
{
    uint8_t area[ROOM];
    filling(area);
}

/* In the same place as `paint` has its area: it is scanned as it was left. */
static size_t taken(void)
{
    uint8_t area[ROOM];
    return scanning(area);
}

static void (*volatile painting)(void) = paint;
static size_t (*volatile counting)(void) = taken;

static uint32_t judge(void) { return berxundar_judge(bytes, length); }
static uint32_t judge_pair(void) { return (uint32_t)berxundar_judge_pair(bytes, length); }
static uint32_t load(void) { return berxundar_net_load(&net, bytes, length); }
static uint32_t run_round(void) { return berxundar_net_round(&net, 3, moved); }
static uint32_t run_round_unasked(void) { return berxundar_net_round(&net, 3, NULL); }
static uint32_t run_round_ordered(void) { return berxundar_net_round_ordered(&net, 3, order, moved); }
static uint32_t run_round_ordered_unasked(void) { return berxundar_net_round_ordered(&net, 3, order, NULL); }
static uint32_t run(void) { return berxundar_net_run_until_calm(&net, 4, 5, NULL, NULL, NULL); }
static uint32_t edit(void) { return berxundar_net_edit(&net, 0, 1); }
static uint32_t edit_standing(void) { return berxundar_net_edit_standing(&net, 0, 1); }
static uint32_t calm(void) { return berxundar_net_calm(&net, &found); }
static uint32_t satisfied(void) { return berxundar_net_satisfied(&net, &found); }
static uint32_t index_of(void) { return berxundar_net_index(&net, (uint32_t)net.components[BERXUNDAR_WORD_ID], &found); }
static uint32_t value(void) { return berxundar_net_value(&net, BERXUNDAR_SIDE_OUTPUTS, 0, 0, &found, NULL); }
static uint32_t sources(void) { return berxundar_net_sources(&net, 0, list, &found); }
static uint32_t targets(void) { return berxundar_net_targets(&net, 0, list, &found); }
static uint32_t look(void) { return berxundar_net_look(&net, bytes, length, NULL, 0, &box); }

/* At the first composite below the root. */
static uint32_t look_inside(void)
{
    uint32_t id;
    size_t at = 1;
    while (record_in(bytes, length, at).form == COMPONENT && record_in(bytes, length, at).kind != BERXUNDAR_COMPOSITE)
        at++;
    id = (uint32_t)record_in(bytes, length, at).id;
    return berxundar_net_look(&net, bytes, length, &id, 1, &box);
}

/* The drawing, which is accepted, as it is, or with a byte behind it. */
static uint32_t mend_with(size_t more)
{
    uint64_t written[2];
    size_t whole = length / BERXUNDAR_RECORD * BERXUNDAR_RECORD;
    return berxundar_mend(bytes, whole + more, mended, sizeof mended, dropped, BERXUNDAR_DROPPED, written, 2);
}

static uint32_t mend(void) { return mend_with(0); }
static uint32_t mend_damaged(void) { return mend_with(1); }

static uint32_t slow_load(void) { return berxundar_slow_net_load(&slow, bytes, length); }
static uint32_t slow_round(void) { return berxundar_slow_net_round(&slow, bytes, length, 3, moved); }
static uint32_t slow_round_unasked(void) { return berxundar_slow_net_round(&slow, bytes, length, 3, NULL); }
static uint32_t slow_edit(void) { return berxundar_slow_net_edit(&slow, bytes, length, 0, 1); }
static uint32_t slow_edit_standing(void) { return berxundar_slow_net_edit_standing(&slow, bytes, length, 0, 1); }
static uint32_t slow_run(void) { return berxundar_slow_net_run_until_calm(&slow, bytes, length, 4, 5, NULL, NULL, NULL); }

static uint32_t check(void) { return berxundar_net_check(&net); }
static uint32_t evaluate(void) { return berxundar_single_evaluate(&single, 0, NULL); }

static const struct {
    const char *name;
    uint32_t (*call)(void);
    size_t said;
} calls[] = { { "judge", judge, 32000 }, { "judge a pair", judge_pair, 32000 }, { "load", load, 32000 },
    { "look at the root", look, 49152 }, { "look inside", look_inside, 49152 }, { "round", run_round, 12000 },
    { "round, bits unasked", run_round_unasked, 12000 }, { "round in an order", run_round_ordered, 12000 },
    { "round in an order, bits unasked", run_round_ordered_unasked, 12000 }, { "run until calm", run, 12000 },
    { "edit", edit, 8000 },
    { "edit, the old way", edit_standing, 8000 }, { "calm", calm, 8000 }, { "satisfied", satisfied, 8000 },
    { "index", index_of, 8000 }, { "value", value, 8000 }, { "sources", sources, 8000 }, { "targets", targets, 8000 },
    { "check", check, 8000 }, { "evaluate", evaluate, 8000 }, { "mend", mend, 98304 },
    { "mend a damaged one", mend_damaged, 98304 }, { "slow load", slow_load, 49152 }, { "slow round", slow_round, 49152 },
    { "slow round, bits unasked", slow_round_unasked, 49152 }, { "slow edit", slow_edit, 49152 },
    { "slow edit, the old way", slow_edit_standing, 49152 }, { "slow run until calm", slow_run, 49152 } };

int main(void)
{
    long read = file_read("-", bytes);
    size_t i, bytes_taken;
    int wrong = read < 0;
    length = read < 0 ? 0 : (size_t)read;
    for (i = 0; i < BERXUNDAR_ORDER; i++)
        order[i] = (uint16_t)i;
    single.kind = BERXUNDAR_AND;
    single.outputs = 1;
    single.output_widths[0] = 1;
    /* Once unmeasured: the first call of memcpy may have the loader look for it, on the same stack. */
    for (i = 0; i < sizeof calls / sizeof calls[0]; i++)
        calls[i].call();
    for (i = 0; i < sizeof calls / sizeof calls[0]; i++) {
        uint32_t answer;
        painting();
        answer = calls[i].call();
        bytes_taken = counting();
        printf("%s %lu\n", calls[i].name, (unsigned long)bytes_taken);
        if (answer != 0 || calls[i].said < bytes_taken) {
            fprintf(stderr, "stack: %s: answer %lu, %lu bytes taken, %lu said\n", calls[i].name, (unsigned long)answer,
                (unsigned long)bytes_taken, (unsigned long)calls[i].said);
            wrong = 1;
        }
    }
    return wrong;
}

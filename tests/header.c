/*
 * Every name of host/berxundar.h in use, for a compiler of C or of C++: each call's short form, the calls without one, the
 * constants. It is compiled, not run.
 */
#include "berxundar.h"

static berxundar_net net;
static uint8_t mended[BERXUNDAR_DAMAGED];
static uint16_t dropped[BERXUNDAR_DROPPED];
static berxundar_single single;
static berxundar_mending mending;
static berxundar_slow_net slow;

static uint32_t changed(const uint8_t *bytes, size_t length)
{
    static uint16_t order[BERXUNDAR_ORDER];
    uint64_t rounds, evaluations, moved, bits[BERXUNDAR_MOVED], found[2];
    return berxundar_judge(bytes, length) + (uint32_t)(berxundar_judge_pair(bytes, length) >> 16)
        + berxundar_earlier(1, bytes, length) + berxundar_mend_file(&mending, bytes, length)
        + berxundar_net_load(&net, bytes, length)
        + berxundar_net_round(&net, 1, bits) + berxundar_net_round_ordered(&net, 1, order, bits)
        + berxundar_net_edit(&net, 0, 1) + berxundar_net_edit_standing(&net, 0, 1)
        + berxundar_net_run_until_calm(&net, 1, 2, &rounds, &evaluations, &moved)
        + berxundar_single_evaluate(&single, 1, &moved)
        + berxundar_mend(bytes, length, mended, sizeof mended, dropped, BERXUNDAR_DROPPED, found, 2);
}

static uint32_t slowly(const uint8_t *bytes, size_t length)
{
    uint64_t rounds, evaluations, moved, bits[BERXUNDAR_MOVED];
    return berxundar_slow_net_load(&slow, bytes, length) + berxundar_slow_net_round(&slow, bytes, length, 1, bits)
        + berxundar_slow_net_edit(&slow, bytes, length, 0, 1) + berxundar_slow_net_edit_standing(&slow, bytes, length, 0, 1)
        + berxundar_slow_net_run_until_calm(&slow, bytes, length, 1, 2, &rounds, &evaluations, &moved);
}

static uint32_t asked(const berxundar_net *of)
{
    static berxundar_box box;
    uint16_t list[BERXUNDAR_NAMES];
    uint64_t found, width;
    return berxundar_net_calm(of, &found) + berxundar_net_satisfied(of, &found) + berxundar_net_index(of, 1, &found)
        + berxundar_net_value(of, BERXUNDAR_SIDE_INPUTS, 0, 0, &found, &width) + berxundar_net_sources(of, 0, list, &found)
        + berxundar_net_targets(of, 0, list, &found) + berxundar_net_look(of, NULL, 0, NULL, 0, &box) + (uint32_t)box.widths[0]
        + berxundar_net_check(of);
}

int main(void)
{
    uint32_t answer = changed(NULL, 0) + asked(&net) + slowly(NULL, 0);
    return berxundar_number(answer) == BERXUNDAR_NO_ORDER && berxundar_position(answer) == BERXUNDAR_FILE
        && mending.length == BERXUNDAR_DAMAGED && mending.count == BERXUNDAR_DROPPED
        && net.components[BERXUNDAR_WORD_FIRST_OUTPUT] == BERXUNDAR_CONST && net.wires[BERXUNDAR_WIRE_TO_INPUT] == BERXUNDAR_BITS
        && net.counts[BERXUNDAR_COUNT_STANDING] == BERXUNDAR_SIDE_OUTPUTS && berxundar_words(answer) == NULL
        && slow.counts[BERXUNDAR_SLOW_COUNT_INPUTS] + slow.counts[BERXUNDAR_SLOW_COUNT_OUTPUTS]
            + slow.counts[BERXUNDAR_SLOW_COUNT_CURRENT] + slow.counts[BERXUNDAR_SLOW_COUNT_FOLLOWING]
            + slow.counts[BERXUNDAR_SLOW_COUNT_STANDING] == BERXUNDAR_SLOW_COUNTS;
}

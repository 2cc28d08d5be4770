/*
 * What the header says beside the calls' own rules: NULL with length 0 is an empty file and a table of no words, so that each call
 * answers as for any short table (2), a load, a look and a mending as for an empty file (1), and a component without ports is
 * evaluated; a net of zeros is one of no components, the net of a root alone, which is looked at along no path; a sentence belongs
 * to an answer and to its number; half of the votes are not most of them; of two records that meet the first call says 13, and the
 * others what they are; an edit goes first, or stands, the old way, and both may be mixed; while an edit waits a net is not calm,
 * and not satisfied where it has something to change; a bit is set for each output that an evaluation changes, and too little room
 * for the bits is 2; a round in an order of wires follows it, and one that is none is 24; a mending writes what comes out and the
 * positions that it drops, and where it is refused nothing; the slow engine answers and writes what the other calls do, and
 * refuses what is not the file's with 20. Leaves with 1 at the first other answer.
 */
#include "berxundar.h"

#define NONE NULL, 0
#define FIVE NONE, NONE, NONE, NONE, NONE
#define SEVEN NONE, NONE, FIVE
#define NUMBER(n) ((uint32_t)(n) << 16)

static berxundar_net net;
static berxundar_slow_net slow;
static berxundar_single single;
static uint16_t order[BERXUNDAR_ORDER + 1];

static int nothing_lent(void)
{
    static const uint8_t record[BERXUNDAR_RECORD] = { 1 };
    static uint64_t numbers[256], widths[256];
    uint64_t found[3] = { 0, 1, 0 };
    return berxundar_judge(NONE) == NUMBER(1) && berxundar_judge_pair(NONE) == (uint64_t)1 << 32
        && berxundar_earlier(NUMBER(1), NONE) == 0 && berxundar_net_load(&net, NONE) == NUMBER(1)
        && berxundar_load(NONE, SEVEN, NONE) == NUMBER(1) && berxundar_round(SEVEN, NONE, 3, NONE) == NUMBER(2)
        && berxundar_round(SEVEN, net.counts, 7, 3, numbers, 256) == NUMBER(2)
        && berxundar_round(BERXUNDAR_LENT(&net), net.counts, 7, 3, NONE) == NUMBER(2)
        && berxundar_round_ordered(SEVEN, NONE, 3, NONE, NONE) == NUMBER(2)
        && berxundar_round_ordered(SEVEN, net.counts, 7, 3, order, BERXUNDAR_ORDER, numbers, 256) == NUMBER(2)
        && berxundar_round_ordered(BERXUNDAR_LENT(&net), NONE, 3, order, BERXUNDAR_ORDER, numbers, 256) == NUMBER(2)
        && berxundar_round_ordered(BERXUNDAR_LENT(&net), net.counts, 6, 3, order, BERXUNDAR_ORDER, numbers, 256) == NUMBER(2)
        && berxundar_round_ordered(BERXUNDAR_LENT(&net), net.counts, 7, 3, NONE, numbers, 256) == NUMBER(2)
        && berxundar_round_ordered(BERXUNDAR_LENT(&net), net.counts, 7, 3, order, BERXUNDAR_ORDER, NONE) == NUMBER(2)
        && berxundar_edit(SEVEN, NONE, 3, 3) == NUMBER(2) && berxundar_edit(SEVEN, net.counts, 7, 3, 3) == NUMBER(2)
        && berxundar_edit_standing(SEVEN, NONE, 3, 3) == NUMBER(2) && berxundar_edit_standing(SEVEN, net.counts, 7, 3, 3) == NUMBER(2)
        && berxundar_run_until_calm(SEVEN, NONE, 3, 3, NONE) == NUMBER(2)
        && berxundar_run_until_calm(BERXUNDAR_LENT(&net), net.counts, 7, 3, 3, NONE) == NUMBER(2)
        && berxundar_run_until_calm(BERXUNDAR_LENT(&net), net.counts, 7, 3, 3, found, 2) == NUMBER(2)
        && berxundar_calm(BERXUNDAR_LENT(&net), net.counts, 7, NONE) == NUMBER(2)
        && berxundar_satisfied(BERXUNDAR_LENT(&net), net.counts, 7, NONE) == NUMBER(2)
        && berxundar_satisfied(SEVEN, NONE, found, 1) == NUMBER(2) && berxundar_satisfied(SEVEN, net.counts, 7, found, 1) == NUMBER(2)
        && berxundar_index(SEVEN, NONE, 3, NONE) == NUMBER(2) && berxundar_value(SEVEN, NONE, 3, 3, 3, NONE) == NUMBER(2)
        && berxundar_sources(BERXUNDAR_LENT(&net), net.counts, 7, 0, NONE, found, 1) == NUMBER(2)
        && berxundar_targets(SEVEN, NONE, 0, NONE, NONE) == NUMBER(2) && berxundar_check(SEVEN, NONE) == NUMBER(2)
        && berxundar_check(BERXUNDAR_LENT(&net), NONE) == NUMBER(2)
        && berxundar_look(NONE, SEVEN, NONE, NONE, NONE, NONE, NONE) == NUMBER(1)
        && berxundar_look(record, sizeof record, SEVEN, NONE, NONE, NONE, NONE, NONE) == NUMBER(2)
        && berxundar_look(record, sizeof record, BERXUNDAR_LENT(&net), NONE, NONE, numbers, 256, widths, 256, found, 2) == NUMBER(2)
        && berxundar_look(record, sizeof record, BERXUNDAR_LENT(&net), net.counts, 7, NONE, numbers, 256, widths, 256, found, 1)
            == NUMBER(2)
        && berxundar_look(record, sizeof record, BERXUNDAR_LENT(&net), net.counts, 7, NONE, numbers, 255, widths, 256, found, 2)
            == NUMBER(2)
        && berxundar_evaluate(1, 0, 1, 0, 0, NONE, NONE, NONE, NONE, 0, NONE) == NUMBER(2)
        && berxundar_evaluate(1, 0, 1, 0, 0, NONE, NONE, NONE, NONE, 0, found, 1) == NUMBER(2)
        && berxundar_evaluate(14, 0, 1, 0, 0, NONE, NONE, NONE, NONE, 0, NONE) == NUMBER(2)
        && berxundar_evaluate(14, 0, 1, 0, 0, NONE, NONE, NONE, NONE, 0, found, 1) == NUMBER(7)
        && berxundar_evaluate(1, 0, 1, 0, 0, NONE, NONE, found, 1, found + 1, 1, 0, NONE) == NUMBER(2) && found[0] == 0
        && berxundar_evaluate(1, 0, 1, 0, 0, NONE, NONE, found, 1, found + 1, 1, 0, found + 2, 1) == 0 && found[0] == 1
        && found[2] == 1;
}

static int zeros(void)
{
    uint64_t calm = 0, satisfied = 0, rounds = 9, moved = 9;
    return berxundar_net_check(&net) == 0 && berxundar_net_round_ordered(&net, 3, order, NULL) == 0
        && berxundar_net_calm(&net, &calm) == 0 && calm == 1
        && berxundar_net_satisfied(&net, &satisfied) == 0 && satisfied == 1
        && berxundar_net_run_until_calm(&net, 5, 7, &rounds, NULL, &moved) == 0 && rounds == 1 && moved == 0
        && berxundar_net_edit(&net, 0, 0) == NUMBER(17) && berxundar_net_edit_standing(&net, 0, 0) == NUMBER(17);
}

/* A root alone in a net of zeros is looked at along no path and not by its id; with an input it is 21, with a Switch in it 20. */
static int looked_at(void)
{
    static uint8_t root[2 * BERXUNDAR_RECORD] = { 1 };
    static berxundar_box box;
    uint32_t id = 1;
    box.inputs = box.outputs = 9;
    root[12] = 1;
    if (berxundar_net_look(&net, root, BERXUNDAR_RECORD, &id, 1, &box) != NUMBER(BERXUNDAR_NO_PATH) || box.inputs != 9
        || berxundar_net_look(&net, root, BERXUNDAR_RECORD, NULL, 0, &box) != 0 || box.inputs != 0 || box.outputs != 0)
        return 0;
    root[4] = 1;
    if (berxundar_net_look(&net, root, BERXUNDAR_RECORD, NULL, 0, &box) != NUMBER(BERXUNDAR_NOTHING_BEHIND))
        return 0;
    root[4] = 0;
    root[24] = 1;
    root[25] = BERXUNDAR_SWITCH;
    root[30] = 1;
    return berxundar_net_look(&net, root, 2 * BERXUNDAR_RECORD, NULL, 0, &box) == NUMBER(BERXUNDAR_NO_PATH) && box.inputs == 0;
}

/* A Joiner of 0, 1, 1 is 6; with an input of another width it is refused. Its output has moved from 0 to 6 and then no more. */
static int joined(void)
{
    uint64_t moved = 9;
    size_t i;
    single.kind = BERXUNDAR_JOINER;
    single.inputs = 3;
    single.outputs = 1;
    single.parameter = 3;
    for (i = 0; i < 3; i++) {
        single.input_numbers[i] = i != 0;
        single.input_widths[i] = 1;
    }
    single.output_widths[0] = 3;
    if (berxundar_single_evaluate(&single, 0, &moved) != 0 || single.output_numbers[0] != 6 || moved != 1
        || berxundar_single_evaluate(&single, 0, &moved) != 0 || moved != 0)
        return 0;
    single.input_widths[2] = 2;
    moved = 9;
    return berxundar_single_evaluate(&single, 0, &moved) == NUMBER(BERXUNDAR_NO_FIT) && moved == 9;
}

/* A Splitter of 3 bits that sees 5: of outputs 1, 1, 0 the two upper ones move. */
static int split(void)
{
    static const berxundar_single none;
    uint64_t moved = 9;
    size_t i;
    single = none;
    single.kind = BERXUNDAR_SPLITTER;
    single.inputs = 1;
    single.outputs = 3;
    single.parameter = 3;
    single.input_numbers[0] = 5;
    single.input_widths[0] = 3;
    for (i = 0; i < 3; i++) {
        single.output_numbers[i] = i < 2;
        single.output_widths[i] = 1;
    }
    return berxundar_single_evaluate(&single, 0, &moved) == 0 && moved == 6 && single.output_numbers[0] == 1
        && single.output_numbers[1] == 0 && single.output_numbers[2] == 1;
}

/* A Majority of two high inputs of four is low, of three of four high; of none it is refused. */
static int voted(void)
{
    static const berxundar_single none;
    size_t i;
    single = none;
    single.kind = BERXUNDAR_MAJORITY;
    single.inputs = 4;
    single.outputs = 1;
    for (i = 0; i < 4; i++) {
        single.input_numbers[i] = i < 2;
        single.input_widths[i] = 1;
    }
    single.output_numbers[0] = 1;
    single.output_widths[0] = 1;
    if (berxundar_single_evaluate(&single, 0, NULL) != 0 || single.output_numbers[0] != 0)
        return 0;
    single.input_numbers[2] = 1;
    if (berxundar_single_evaluate(&single, 0, NULL) != 0 || single.output_numbers[0] != 1)
        return 0;
    single.inputs = 0;
    return berxundar_single_evaluate(&single, 0, NULL) == NUMBER(BERXUNDAR_BAD_FIELDS) && single.output_numbers[0] == 1;
}

/* Each number has a sentence of its own, by itself and as an answer with any position. */
static int sentences(void)
{
    uint32_t a, b;
    for (a = 0; a <= 25; a++) {
        if (berxundar_words(a) != berxundar_words(NUMBER(a) + (a ? 1023 : 0)))
            return 0;
        for (b = 0; b < a; b++)
            if (berxundar_words(a) == berxundar_words(b))
                return 0;
    }
    return 1;
}

/* Writes a record of small numbers. */
static void record(uint8_t *at, uint8_t form, uint8_t kind, uint8_t owner, uint8_t a, uint8_t b, uint8_t c, uint8_t id)
{
    at[0] = form;
    at[1] = kind;
    at[2] = owner;
    at[4] = a;
    at[6] = b;
    at[8] = c;
    at[12] = id;
}

/*
 * A box holds a Not and a Switch: the Switch enters the Not twice (13), once beside a map (22), or two maps enter it (23). The
 * first call says 13 of all three, a load and a look say what they are, and the second call names the earlier record too.
 */
static int met(void)
{
    static const uint8_t forms[3][2] = { { 2, 2 }, { 2, 3 }, { 3, 3 } };
    static const uint32_t numbers[3] = { BERXUNDAR_ENTERED_TWICE, BERXUNDAR_WIRE_AND_MAP, BERXUNDAR_TWO_MAPS };
    static berxundar_box box;
    int i;
    for (i = 0; i < 3; i++) {
        uint8_t file[6 * BERXUNDAR_RECORD] = { 0 };
        uint32_t answer = NUMBER(numbers[i]) + 5;
        record(file, 1, BERXUNDAR_COMPOSITE, 0, 0, 0, 0, 1);
        record(file + 24, 1, BERXUNDAR_COMPOSITE, 0, 2, 0, 0, 2);
        record(file + 48, 1, BERXUNDAR_NOT, 1, 1, 1, 0, 3);
        record(file + 72, 1, BERXUNDAR_SWITCH, 1, 0, 1, 0, 4);
        record(file + 96, forms[i][0], 0, 1, 1, 0, 0, 0);
        record(file + 120, forms[i][1], 0, 1, 1, 0, 0, 0);
        if (berxundar_judge(file, sizeof file) != NUMBER(13) + 5
            || berxundar_judge_pair(file, sizeof file) != ((uint64_t)answer << 16) + 4
            || berxundar_net_load(&net, file, sizeof file) != answer
            || berxundar_net_look(&net, file, sizeof file, NULL, 0, &box) != answer
            || berxundar_earlier(answer, file, sizeof file) != 4 || berxundar_earlier(NUMBER(2), file, sizeof file) != 0)
            return 0;
    }
    return 1;
}

static uint8_t drawn[4 * BERXUNDAR_RECORD];

/* Draws a Switch that leads to a Not, and loads it. */
static uint32_t load_not(void)
{
    record(drawn, 1, BERXUNDAR_COMPOSITE, 0, 0, 0, 0, 1);
    record(drawn + 24, 1, BERXUNDAR_SWITCH, 0, 0, 1, 0, 2);
    record(drawn + 48, 1, BERXUNDAR_NOT, 0, 1, 1, 0, 3);
    record(drawn + 72, 2, 0, 0, 0, 0, 1, 0);
    return berxundar_net_load(&net, drawn, sizeof drawn);
}

/*
 * A Switch leads to a Not. Once it is set, the old way, the net is not calm until the round has ended that evaluates the Not again:
 * the edit waits in the standing list, the following list, the current list. A run waits for it too, and then the Not is high again.
 */
static int waited(void)
{
    uint64_t calm = 9, rounds = 0, evaluations = 0, moved = 0, value = 9;
    int i;
    if (load_not() != 0 || berxundar_net_run_until_calm(&net, 0, 9, NULL, NULL, NULL) != 0 || berxundar_net_calm(&net, &calm) != 0
        || calm != 1 || berxundar_net_edit_standing(&net, 0, 1) != 0)
        return 0;
    for (i = 0; i < 4; i++)
        if (berxundar_net_calm(&net, &calm) != 0 || calm != 0 || berxundar_net_round(&net, 0, NULL) != 0)
            return 0;
    if (berxundar_net_calm(&net, &calm) != 0 || calm != 1 || berxundar_net_value(&net, 1, 1, 0, &value, NULL) != 0 || value != 0)
        return 0;
    return berxundar_net_edit_standing(&net, 0, 0) == 0 && berxundar_net_run_until_calm(&net, 0, 9, &rounds, &evaluations, &moved) == 0
        && rounds == 4 && evaluations == 3 && moved == 1 && berxundar_net_value(&net, 1, 1, 0, &value, NULL) == 0 && value == 1;
}

/* How many components the current, the following and the standing list name. */
static int named(uint64_t current, uint64_t following, uint64_t standing)
{
    return net.counts[BERXUNDAR_COUNT_CURRENT] == current && net.counts[BERXUNDAR_COUNT_FOLLOWING] == following
        && net.counts[BERXUNDAR_COUNT_STANDING] == standing;
}

/*
 * The same drawing. A Switch that goes first is named in the current list alone, and once: the next round evaluates it, and the one
 * after it the Not. Where it stands already it still stands, until it is evaluated.
 */
static int went_first(void)
{
    uint64_t calm = 9, rounds = 0, evaluations = 0, moved = 0, value = 9;
    if (load_not() != 0 || berxundar_net_run_until_calm(&net, 0, 9, NULL, NULL, NULL) != 0 || !named(0, 0, 0)
        || berxundar_net_edit(&net, 0, 1) != 0 || !named(1, 0, 0) || net.current[0] != 0 || berxundar_net_edit(&net, 0, 1) != 0
        || !named(1, 0, 0) || berxundar_net_calm(&net, &calm) != 0 || calm != 0)
        return 0;
    if (berxundar_net_run_until_calm(&net, 0, 9, &rounds, &evaluations, &moved) != 0 || rounds != 2 || evaluations != 2 || moved != 1
        || berxundar_net_value(&net, 1, 1, 0, &value, NULL) != 0 || value != 0)
        return 0;
    if (berxundar_net_edit_standing(&net, 0, 0) != 0 || !named(0, 0, 1) || berxundar_net_edit(&net, 0, 0) != 0 || !named(1, 0, 1))
        return 0;
    return berxundar_net_round(&net, 0, NULL) == 0 && named(1, 0, 0) && net.current[0] == 1;
}

static int satisfied_is(uint64_t wanted)
{
    uint64_t satisfied = 9;
    return berxundar_net_satisfied(&net, &satisfied) == 0 && satisfied == wanted;
}

/*
 * The same drawing, as `waited` left it: the Switch low, the Not high, calm and satisfied. An edit, which stands, to what is there
 * leaves it satisfied and not calm. An edit to another leaves the wire with two numbers, and the net is not satisfied until the
 * round has ended that evaluates the Not again. A wire that no list looks at is not judged, nor is a Switch ever; a Not whose
 * output is wrong is, where a list names it.
 */
static int judged(void)
{
    uint64_t calm = 9;
    int i;
    if (!satisfied_is(1) || berxundar_net_edit_standing(&net, 0, 0) != 0 || !satisfied_is(1) || berxundar_net_calm(&net, &calm) != 0
        || calm != 0 || berxundar_net_edit_standing(&net, 0, 1) != 0)
        return 0;
    for (i = 0; i < 4; i++)
        if (!satisfied_is(0) || berxundar_net_round(&net, 0, NULL) != 0)
            return 0;
    if (!satisfied_is(1))
        return 0;
    net.outputs[0] = 0;
    net.outputs[1] = 1;
    if (!satisfied_is(1))
        return 0;
    net.following[0] = 1;
    net.counts[BERXUNDAR_COUNT_FOLLOWING] = 1;
    if (!satisfied_is(0))
        return 0;
    net.following[0] = 0;
    if (!satisfied_is(0))
        return 0;
    net.inputs[0] = 0;
    return satisfied_is(1);
}

/*
 * In its first round the Not moves and the Switch does not; bits past the two are kept, and a refused round writes none. Once the
 * Switch is set, its bit stays 0 in the round that evaluates it, and the Not moves in the round after.
 */
static int bits_moved(void)
{
    uint64_t bits[BERXUNDAR_MOVED + 1];
    size_t i;
    for (i = 0; i <= BERXUNDAR_MOVED; i++)
        bits[i] = 9;
    if (load_not() != 0 || berxundar_round(BERXUNDAR_LENT(&net), net.counts, 7, 0, bits, 0) != NUMBER(2)
        || berxundar_round(BERXUNDAR_LENT(&net), net.counts, 7, 0, bits, 255) != NUMBER(2) || bits[0] != 9 || bits[1] != 9
        || net.outputs[1] != 0)
        return 0;
    net.counts[BERXUNDAR_COUNT_CURRENT] = 257;
    if (berxundar_round(BERXUNDAR_LENT(&net), net.counts, 7, 0, bits, 255) != NUMBER(2)
        || berxundar_round(BERXUNDAR_LENT(&net), net.counts, 7, 0, bits, 256) != NUMBER(16) || bits[0] != 9)
        return 0;
    net.counts[BERXUNDAR_COUNT_CURRENT] = 2;
    if (berxundar_round(BERXUNDAR_LENT(&net), net.counts, 7, 0, bits, 257) != 0 || bits[0] != 0 || bits[1] != 1)
        return 0;
    for (i = 2; i <= BERXUNDAR_MOVED; i++)
        if (bits[i] != 9)
            return 0;
    if (berxundar_net_edit_standing(&net, 0, 1) != 0 || berxundar_net_round(&net, 0, bits) != 0
        || berxundar_net_round(&net, 0, bits) != 0)
        return 0;
    bits[0] = bits[1] = 9;
    if (berxundar_net_round(&net, 0, bits) != 0 || bits[0] != 0 || bits[1] != 9)
        return 0;
    return berxundar_net_round(&net, 0, bits) == 0 && bits[0] == 0 && bits[1] == 1;
}

/* ---- Rounds in an order of wires. ---- */

/* Draws a Const that is 1 and leads to three Outputs, one wire to each, and loads it. */
static uint32_t load_fan(void)
{
    static uint8_t fan[8 * BERXUNDAR_RECORD];
    uint8_t i;
    record(fan, 1, BERXUNDAR_COMPOSITE, 0, 0, 0, 0, 1);
    record(fan + 24, 1, BERXUNDAR_CONST, 0, 0, 1, 1, 2);
    fan[24 + 16] = 1;
    for (i = 0; i < 3; i++) {
        record(fan + 24 * (2 + i), 1, BERXUNDAR_OUTPUT, 0, 1, 1, 0, (uint8_t)(3 + i));
        fan[24 * (2 + i) + 16] = 1;
        record(fan + 24 * (5 + i), 2, 0, 0, 0, 0, (uint8_t)(1 + i), 0);
    }
    return berxundar_net_load(&net, fan, sizeof fan);
}

/* The order of the three wires; words behind it that are none. */
static void lay_order(uint16_t first, uint16_t second, uint16_t third)
{
    size_t i;
    order[0] = first;
    order[1] = second;
    order[2] = third;
    for (i = 3; i <= BERXUNDAR_ORDER; i++)
        order[i] = 65535;
}

/* Whether a net has the words of another. */
static int same_net(const berxundar_net *other)
{
    size_t i;
    for (i = 0; i < sizeof net; i++)
        if (((const uint8_t *)&net)[i] != ((const uint8_t *)other)[i])
            return 0;
    return 1;
}

/* Whether a round in the order, lent so many entries of it and so many words for bits, gives a number, and writes nothing. */
static int refused_in_order(size_t entries, size_t words, uint32_t number)
{
    static berxundar_net before;
    uint64_t bits[BERXUNDAR_MOVED];
    size_t i;
    for (i = 0; i < BERXUNDAR_MOVED; i++)
        bits[i] = 9;
    before = net;
    if (berxundar_round_ordered(BERXUNDAR_LENT(&net), net.counts, 7, 0, order, entries, bits, words) != NUMBER(number)
        || !same_net(&before))
        return 0;
    for (i = 0; i < BERXUNDAR_MOVED; i++)
        if (bits[i] != 9)
            return 0;
    return 1;
}

/*
 * An order that has a wire twice, or a number that is no wire's, is 24; tables that are no net are 16 before that, and too little
 * room for the order, or for the bits, 2 before both.
 */
static int no_order(void)
{
    static const uint16_t none[][3] = { { 0, 1, 1 }, { 2, 1, 2 }, { 0, 0, 0 }, { 0, 1, 3 }, { 3, 1, 2 }, { 0, 1024, 2 },
        { 0, 1, 65535 }, { 256, 1, 2 } };
    size_t i;
    if (load_fan() != 0)
        return 0;
    for (i = 0; i < sizeof none / sizeof none[0]; i++) {
        lay_order(none[i][0], none[i][1], none[i][2]);
        if (!refused_in_order(1024, 256, BERXUNDAR_NO_ORDER) || !refused_in_order(1023, 256, 2) || !refused_in_order(1024, 255, 2)
            || !refused_in_order(3, 256, 2))
            return 0;
        net.counts[BERXUNDAR_COUNT_CURRENT] = 257;
        if (!refused_in_order(1024, 256, 16) || !refused_in_order(1023, 256, 2) || !refused_in_order(1024, 255, 2))
            return 0;
        net.counts[BERXUNDAR_COUNT_CURRENT] = 4;
    }
    lay_order(0, 1, 2);
    net.counts[BERXUNDAR_COUNT_WIRES] = 1025;
    return refused_in_order(1024, 256, 16) && refused_in_order(1023, 256, 2);
}

/*
 * The Outputs are listed in the order of the wires, behind the Const, which stood there before; each moves, bits past the four are
 * kept, and so is the order. The stored order gives a plain round.
 */
static int in_order(void)
{
    static const uint16_t orders[6][3] = { { 0, 1, 2 }, { 0, 2, 1 }, { 1, 0, 2 }, { 1, 2, 0 }, { 2, 0, 1 }, { 2, 1, 0 } };
    static berxundar_net plain;
    uint64_t bits[BERXUNDAR_MOVED + 1];
    size_t turn, i;
    if (load_fan() != 0 || berxundar_net_round(&net, 0, NULL) != 0)
        return 0;
    plain = net;
    for (turn = 0; turn < 6; turn++) {
        const uint16_t *row = orders[turn];
        for (i = 0; i <= BERXUNDAR_MOVED; i++)
            bits[i] = 9;
        lay_order(row[0], row[1], row[2]);
        if (load_fan() != 0
            || berxundar_round_ordered(BERXUNDAR_LENT(&net), net.counts, 7, 0, order, 1024 + turn % 2, bits, 256 + turn % 2) != 0
            || !named(4, 0, 0) || net.current[0] != 0)
            return 0;
        for (i = 0; i < 3; i++)
            if (net.current[1 + i] != 1 + row[i] || order[i] != row[i] || bits[1 + i] != 1 || net.inputs[i] != 1)
                return 0;
        for (i = 4; i <= BERXUNDAR_MOVED; i++)
            if (bits[i] != 9)
                return 0;
        if (bits[0] != 0 || same_net(&plain) != (turn == 0) || order[3] != 65535)
            return 0;
    }
    return berxundar_net_round_ordered(&net, 0, order, bits) == 0 && bits[0] == 0 && bits[3] == 0 && bits[4] == 9 && named(0, 0, 0)
        && berxundar_net_round_ordered(&net, 0, order, NULL) == 0;
}

static uint8_t mended[BERXUNDAR_DAMAGED + 1];
static uint16_t dropped[BERXUNDAR_DROPPED + 1];

/* Mends a file into `mended` and `dropped`, of whose entries so many are lent. */
static uint32_t mend(const uint8_t *file, size_t length, size_t bytes, size_t positions, uint64_t *found, size_t words)
{
    return berxundar_mend(file, length, mended, bytes, dropped, positions, found, words);
}

/*
 * A root, a Not in it that enters itself three times, the first time from an output that is not there, and a byte: the first
 * and the third connection go, and the byte. With too little room it is 2, before that 1 for no whole record; with an output
 * map too many it is 14, at the root; a record of no kind is 3, at its place in what would have come out; a connection alone is
 * 1, as nothing is left. What is refused writes nothing, and what is done no word more.
 */
static int mended_up(void)
{
    uint8_t file[6 * BERXUNDAR_RECORD + 1] = { 0 };
    uint64_t found[2] = { 9, 9 };
    size_t i;
    for (i = 0; i < sizeof mended; i++)
        mended[i] = 7;
    for (i = 0; i <= BERXUNDAR_DROPPED; i++)
        dropped[i] = 7;
    record(file, 1, BERXUNDAR_COMPOSITE, 0, 0, 0, 0, 1);
    record(file + 24, 1, BERXUNDAR_NOT, 0, 1, 1, 0, 2);
    for (i = 2; i < 5; i++)
        record(file + 24 * i, 2, 0, 0, 0, i == 2, 0, 0);
    if (mend(NULL, 0, 0, 0, found, 0) != NUMBER(1) || mend(file, 23, 0, 0, found, 0) != NUMBER(1)
        || mend(file, 121, 120, 1025, found, 2) != NUMBER(2) || mend(file, 121, 121, 1024, found, 2) != NUMBER(2)
        || mend(file, 121, 121, 1025, found, 1) != NUMBER(2) || mend(file, 121, 0, 0, NULL, 0) != NUMBER(2)
        || berxundar_mend(file, 121, NONE, NONE, found, 2) != NUMBER(2))
        return 0;
    record(file + 120, 4, 0, 0, 0, 0, 0, 0);
    if (mend(file, sizeof file, sizeof file, 1025, found, 2) != NUMBER(BERXUNDAR_OUTPUT_MAPS))
        return 0;
    file[120] = 9;
    if (mend(file, 144, 144, 1025, found, 2) != NUMBER(BERXUNDAR_BAD_RECORD) + 3
        || mend(file + 48, 24, 24, 1025, found, 2) != NUMBER(BERXUNDAR_BAD_SIZE) || found[0] != 9 || found[1] != 9)
        return 0;
    for (i = 0; i < sizeof mended; i++)
        if (mended[i] != 7 || dropped[i % (BERXUNDAR_DROPPED + 1)] != 7)
            return 0;
    if (mend(file, 121, 121, 1025, found, 2) != 0 || found[0] != 72 || found[1] != 3 || dropped[0] != 2 || dropped[1] != 4
        || dropped[2] != 5 || dropped[3] != 7 || berxundar_judge(mended, 72) != 0)
        return 0;
    for (i = 0; i < 72; i++)
        if (mended[i] != file[i < 48 ? i : i + 24])
            return 0;
    for (; i < sizeof mended; i++)
        if (mended[i] != 7)
            return 0;
    return mend(file, 48, sizeof mended, 1026, found, 2) == 0 && found[0] == 48 && found[1] == 0 && dropped[0] == 2
        && mended[48] == 2;
}

/* ---- The slow engine. ---- */

/* Of NULL with length 0 the file is empty (1), and a table, the counts or the room for an answer too short (2), before a record of
 * no kind (3). A root alone has no ports and no components, and zeros are what a load of it leaves. */
static int nothing_lent_slowly(void)
{
    static const uint8_t root[BERXUNDAR_RECORD] = { 1 };
    static const uint8_t bad[BERXUNDAR_RECORD] = { 9 };
    static uint64_t moved[BERXUNDAR_MOVED];
    uint64_t found[3] = { 9, 9, 9 };
    size_t length = BERXUNDAR_RECORD;
    return berxundar_slow_load(NONE, FIVE, NONE) == NUMBER(1) && berxundar_slow_round(NONE, FIVE, NONE, 3, NONE) == NUMBER(1)
        && berxundar_slow_edit(NONE, FIVE, NONE, 3, 3) == NUMBER(1)
        && berxundar_slow_edit_standing(NONE, FIVE, NONE, 3, 3) == NUMBER(1)
        && berxundar_slow_run_until_calm(NONE, FIVE, NONE, 3, 3, NONE) == NUMBER(1)
        && berxundar_slow_load(bad, length, FIVE, NONE) == NUMBER(2)
        && berxundar_slow_load(root, length, FIVE, slow.counts, 5) == NUMBER(2)
        && berxundar_slow_round(bad, length, FIVE, NONE, 3, NONE) == NUMBER(2)
        && berxundar_slow_round(bad, length, BERXUNDAR_SLOW_LENT(&slow), 3, NONE) == NUMBER(2)
        && berxundar_slow_round(root, length, BERXUNDAR_SLOW_LENT(&slow), 3, moved, 255) == NUMBER(2)
        && berxundar_slow_edit(bad, length, FIVE, NONE, 3, 3) == NUMBER(2)
        && berxundar_slow_edit_standing(bad, length, FIVE, slow.counts, 4, 3, 3) == NUMBER(2)
        && berxundar_slow_run_until_calm(bad, length, BERXUNDAR_SLOW_LENT(&slow), 3, 3, NONE) == NUMBER(2)
        && berxundar_slow_run_until_calm(root, length, BERXUNDAR_SLOW_LENT(&slow), 3, 3, found, 2) == NUMBER(2)
        && berxundar_slow_net_load(&slow, bad, length) == NUMBER(3)
        && berxundar_slow_net_round(&slow, bad, length, 3, NULL) == NUMBER(3)
        && berxundar_slow_net_round(&slow, root, length, 3, NULL) == 0
        && berxundar_slow_net_edit(&slow, root, length, 0, 0) == NUMBER(17)
        && berxundar_slow_net_run_until_calm(&slow, root, length, 3, 9, found, found + 1, found + 2) == 0 && found[0] == 1
        && found[1] == 0 && found[2] == 0;
}

/* Whether the ports and the lists of the slow engine are the net's. */
static int alike(void)
{
    static const size_t counts[BERXUNDAR_SLOW_COUNTS] = { BERXUNDAR_COUNT_INPUTS, BERXUNDAR_COUNT_OUTPUTS, BERXUNDAR_COUNT_CURRENT,
        BERXUNDAR_COUNT_FOLLOWING, BERXUNDAR_COUNT_STANDING };
    size_t i;
    for (i = 0; i < BERXUNDAR_SLOW_COUNTS; i++)
        if (slow.counts[i] != net.counts[counts[i]])
            return 0;
    for (i = 0; i < BERXUNDAR_INPUTS; i++)
        if ((i < slow.counts[0] && slow.inputs[i] != net.inputs[i]) || (i < slow.counts[1] && slow.outputs[i] != net.outputs[i])
            || (i < slow.counts[2] && slow.current[i] != net.current[i])
            || (i < slow.counts[3] && slow.following[i] != net.following[i])
            || (i < slow.counts[4] && slow.standing[i] != net.standing[i]))
            return 0;
    return 1;
}

/* The Switch and the Not in both engines: a load, a round and its bits, those past the two kept, an edit of each way, and a run. */
static int ran_slowly(void)
{
    uint64_t bits[BERXUNDAR_MOVED], slow_bits[BERXUNDAR_MOVED], ran[3] = { 9, 9, 9 }, slow_ran[3] = { 8, 8, 8 };
    size_t i;
    for (i = 0; i < BERXUNDAR_MOVED; i++)
        bits[i] = slow_bits[i] = 9;
    if (load_not() != 0 || berxundar_slow_net_load(&slow, drawn, sizeof drawn) != 0 || !alike()
        || berxundar_net_round(&net, 0, bits) != 0 || berxundar_slow_net_round(&slow, drawn, sizeof drawn, 0, slow_bits) != 0
        || !alike() || slow.outputs[1] != 1)
        return 0;
    for (i = 0; i < BERXUNDAR_MOVED; i++)
        if (bits[i] != slow_bits[i] || (i >= 2 && slow_bits[i] != 9))
            return 0;
    if (berxundar_net_edit(&net, 0, 1) != 0 || berxundar_slow_net_edit(&slow, drawn, sizeof drawn, 0, 1) != 0 || !alike()
        || berxundar_net_round(&net, 0, NULL) != 0 || berxundar_slow_net_round(&slow, drawn, sizeof drawn, 0, NULL) != 0 || !alike()
        || berxundar_net_edit_standing(&net, 0, 0) != 0 || berxundar_slow_net_edit_standing(&slow, drawn, sizeof drawn, 0, 0) != 0
        || !alike() || slow.counts[BERXUNDAR_SLOW_COUNT_STANDING] != 1)
        return 0;
    return berxundar_net_run_until_calm(&net, 0, 9, ran, ran + 1, ran + 2) == 0
        && berxundar_slow_net_run_until_calm(&slow, drawn, sizeof drawn, 0, 9, slow_ran, slow_ran + 1, slow_ran + 2) == 0 && alike()
        && ran[0] == slow_ran[0] && ran[1] == slow_ran[1] && ran[2] == slow_ran[2] && slow_ran[0] == 4 && slow.outputs[1] == 1;
}

/* Whether each call on the drawing but a load gives a number, and writes nothing. */
static int refused_slowly(uint32_t number)
{
    static berxundar_slow_net before;
    uint64_t found[3] = { 9, 9, 9 };
    size_t i;
    before = slow;
    if (berxundar_slow_net_round(&slow, drawn, sizeof drawn, 0, NULL) != NUMBER(number)
        || berxundar_slow_net_edit(&slow, drawn, sizeof drawn, 9, 9) != NUMBER(number)
        || berxundar_slow_net_edit_standing(&slow, drawn, sizeof drawn, 9, 9) != NUMBER(number)
        || berxundar_slow_net_run_until_calm(&slow, drawn, sizeof drawn, 0, 9, found, found + 1, found + 2) != NUMBER(number)
        || found[0] != 9)
        return 0;
    for (i = 0; i < sizeof slow; i++)
        if (((const uint8_t *)&slow)[i] != ((const uint8_t *)&before)[i])
            return 0;
    return 1;
}

/*
 * Loaded anew, with 0 and 1 in the current list: what cannot be set is refused with 17, 18 and 19. A count of ports that is not the
 * file's, a list that is too long, one that names no component or one twice, and a number that does not fit are 20, before that;
 * and so is another file, in which the Switch is a Const that is 1. What is past the counts is not looked at.
 */
static int not_the_files(void)
{
    static berxundar_slow_net loaded;
    int i;
    if (berxundar_slow_net_load(&slow, drawn, sizeof drawn) != 0
        || berxundar_slow_net_edit(&slow, drawn, sizeof drawn, 2, 0) != NUMBER(17)
        || berxundar_slow_net_edit_standing(&slow, drawn, sizeof drawn, 1, 0) != NUMBER(18)
        || berxundar_slow_net_edit(&slow, drawn, sizeof drawn, 0, 2) != NUMBER(19))
        return 0;
    loaded = slow;
    for (i = 0; i < 8; i++, slow = loaded) {
        slow.counts[BERXUNDAR_SLOW_COUNT_INPUTS] += i == 0;
        slow.counts[BERXUNDAR_SLOW_COUNT_OUTPUTS] -= i == 1;
        slow.counts[BERXUNDAR_SLOW_COUNT_FOLLOWING] = i == 2 ? 257 : 0;
        slow.counts[BERXUNDAR_SLOW_COUNT_STANDING] = i == 3 ? 2 : 0;
        slow.current[1] = (uint16_t)(i == 4 ? 2 : i == 5 ? 0 : 1);
        slow.inputs[0] = i == 6 ? 2 : 0;
        slow.outputs[1] = i == 7 ? UINT64_C(1) << 63 : 0;
        if (!refused_slowly(BERXUNDAR_NO_PATH))
            return 0;
    }
    slow.inputs[1] = slow.outputs[2] = 9;
    slow.current[2] = slow.following[0] = slow.standing[0] = 9;
    if (berxundar_slow_net_edit(&slow, drawn, sizeof drawn, 9, 0) != NUMBER(17))
        return 0;
    drawn[25] = BERXUNDAR_CONST;
    drawn[32] = drawn[40] = 1;
    return refused_slowly(BERXUNDAR_NO_PATH) && berxundar_slow_net_load(&slow, drawn, sizeof drawn) == 0 && slow.outputs[0] == 1
        && berxundar_slow_net_round(&slow, drawn, sizeof drawn, 0, NULL) == 0;
}

int main(void)
{
    return !(zeros() && nothing_lent() && looked_at() && joined() && split() && voted() && sentences() && met() && went_first()
        && waited() && judged() && bits_moved() && no_order() && in_order() && mended_up() && nothing_lent_slowly() && ran_slowly()
        && not_the_files());
}

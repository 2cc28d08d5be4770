/*
 * The trace program: speaks the language of docs/TRACE.md over the calls of host/berxundar.h, so that what is compared with the
 * Rust is what a host calls.
 *
 * Built with -DGUARDED each table, file and answer is lent in memory of its own that ends, or with -DGUARDED=2 starts, at a page
 * that nobody may touch, and has no word more than is lent: a call that reads or writes past what it is lent ends the program.
 */
#include "berxundar.h"

/* Of the C library, declared here and not by its own headers: this is also compiled where those are another machine's. */
long read(int file, void *to, size_t count);
long write(int file, const void *from, size_t count);

enum {
    COMPONENTS, INPUTS, OUTPUTS, WIRES, CURRENT, FOLLOWING, STANDING, TABLES,
    LIST = TABLES, NUMBERS, WIDTHS, MOVED, MENDED, DROPPED,
    SLOW_INPUTS, SLOW_OUTPUTS, SLOW_CURRENT, SLOW_FOLLOWING, SLOW_STANDING, ORDER, LENT
};

/* The counts of the slow engine, each in the place that its table has among the five. */
#define SLOW_COUNTS (ORDER - SLOW_INPUTS)

/* Of a file of more bytes, which is read to its end, so many stand for it: they are too many as well. */
#define LONGEST 30000

/* The most values of a side that `X` takes, and the most ids of a path that `B` takes. */
#define VALUES 256
#define PATH 256

/* 2^32 commands are enough. */
#define COMMANDS UINT64_C(4294967296)

static const size_t full_words[LENT] = { BERXUNDAR_COMPONENT_WORDS, BERXUNDAR_INPUTS, BERXUNDAR_OUTPUTS, BERXUNDAR_WIRE_WORDS,
    BERXUNDAR_NAMES, BERXUNDAR_NAMES, BERXUNDAR_NAMES, BERXUNDAR_NAMES, BERXUNDAR_SHOWN, BERXUNDAR_SHOWN, BERXUNDAR_MOVED,
    LONGEST, BERXUNDAR_DROPPED, BERXUNDAR_INPUTS, BERXUNDAR_OUTPUTS, BERXUNDAR_NAMES, BERXUNDAR_NAMES, BERXUNDAR_NAMES,
    BERXUNDAR_ORDER };
static const size_t full_entries[TABLES] = { BERXUNDAR_COMPONENTS, BERXUNDAR_INPUTS, BERXUNDAR_OUTPUTS, BERXUNDAR_WIRES,
    BERXUNDAR_NAMES, BERXUNDAR_NAMES, BERXUNDAR_NAMES };
static const char *const table_names[TABLES]
    = { "components", "inputs", "outputs", "wires", "current", "following", "standing" };

static berxundar_net net;
static uint16_t list[BERXUNDAR_NAMES];
static berxundar_box box;
static uint64_t moved[BERXUNDAR_MOVED];
static uint64_t found[3];
static uint8_t file[LONGEST], kept[LONGEST], mended[LONGEST];
static uint16_t dropped[BERXUNDAR_DROPPED], order[BERXUNDAR_ORDER];
/* The slow engine's own tables and counts. */
static struct {
    uint64_t inputs[BERXUNDAR_INPUTS], outputs[BERXUNDAR_OUTPUTS], counts[SLOW_COUNTS];
    uint16_t current[BERXUNDAR_NAMES], following[BERXUNDAR_NAMES], standing[BERXUNDAR_NAMES];
} slow;
static size_t kept_length;
static size_t lent[LENT];

/* ---- Output: a command's lines, written before the next command is read. ---- */

static char out[65536];
static size_t out_length;

static void flush(void)
{
    size_t done = 0;
    while (done < out_length) {
        long step = write(1, out + done, out_length - done);
        if (step <= 0)
            break;
        done += (size_t)step;
    }
    out_length = 0;
}

static void put(char c)
{
    if (out_length == sizeof out)
        flush();
    out[out_length++] = c;
}

static void put_words(const char *words)
{
    while (*words)
        put(*words++);
}

static void put_number(uint64_t number)
{
    char digits[20];
    size_t count = 0;
    do {
        digits[count++] = (char)('0' + number % 10);
        number /= 10;
    } while (number);
    put(' ');
    while (count)
        put(digits[--count]);
}

static void line(const char *word, size_t count, const uint64_t *numbers)
{
    size_t i;
    put_words(word);
    for (i = 0; i < count; i++)
        put_number(numbers[i]);
    put('\n');
}

static void short_line(const char *word, size_t count, const uint16_t *numbers)
{
    size_t i;
    put_words(word);
    for (i = 0; i < count; i++)
        put_number(numbers[i]);
    put('\n');
}

static void pair(const char *word, uint64_t a, uint64_t b)
{
    uint64_t numbers[2];
    numbers[0] = a;
    numbers[1] = b;
    line(word, 2, numbers);
}

static void triple(const char *word, uint64_t a, uint64_t b, uint64_t c)
{
    uint64_t numbers[3];
    numbers[0] = a;
    numbers[1] = b;
    numbers[2] = c;
    line(word, 3, numbers);
}

/* ---- Input: no further than the command at hand. ---- */

static int take(void *to, size_t count)
{
    size_t done = 0;
    while (done < count) {
        long step = read(0, (char *)to + done, count - done);
        if (step <= 0)
            return 0;
        done += (size_t)step;
    }
    return 1;
}

static uint64_t number_in(const uint8_t *bytes, size_t count)
{
    uint64_t number = 0;
    while (count)
        number = number * 256 + bytes[--count];
    return number;
}

/* Reads a file: its length, then its bytes, of which the first LONGEST are kept. */
static int take_file(uint8_t *to, size_t *length)
{
    uint8_t head[4], rest[4096];
    uint64_t left;
    if (!take(head, 4))
        return 0;
    left = number_in(head, 4);
    *length = left < LONGEST ? (size_t)left : LONGEST;
    if (!take(to, *length))
        return 0;
    for (left -= *length; left;) {
        size_t step = left < sizeof rest ? (size_t)left : sizeof rest;
        if (!take(rest, step))
            return 0;
        left -= step;
    }
    return 1;
}

/* ---- Memory that is lent. ---- */

/* Built with -DOVERSTATED=24 a judgement is told of a record more than it is lent: what the guard pages are there to show. */
#ifndef OVERSTATED
#define OVERSTATED 0
#endif

#ifdef GUARDED
void *mmap(void *at, size_t length, int allowed, int how, int file_number, long offset);
int mprotect(void *at, size_t length, int allowed);

#define PAGE 4096
#define ROOM (8 * PAGE)
#define PLACES 30

static uint8_t *places[PLACES];

/* A copy of so many bytes between two pages that nobody may touch, against one of them. */
static void *lend(int place, const void *own, size_t bytes)
{
    size_t i;
    uint8_t *at;
    if (!places[place]) {
        places[place] = (uint8_t *)mmap(0, ROOM + 2 * PAGE, 3, 0x22, -1, 0);
        mprotect(places[place], PAGE, 0);
        mprotect(places[place] + PAGE + ROOM, PAGE, 0);
    }
    at = GUARDED == 2 ? places[place] + PAGE : places[place] + PAGE + ROOM - bytes;
    for (i = 0; i < bytes; i++)
        at[i] = ((const uint8_t *)own)[i];
    return at;
}

static void back(void *own, const void *at, size_t bytes)
{
    size_t i;
    for (i = 0; i < bytes; i++)
        ((uint8_t *)own)[i] = ((const uint8_t *)at)[i];
}
#else
static void *lend(int place, void *own, size_t bytes)
{
    (void)place;
    (void)bytes;
    return own;
}

static void back(void *own, const void *at, size_t bytes)
{
    (void)own;
    (void)at;
    (void)bytes;
}
#endif

/* The tables as they are lent to one call. */
static struct {
    uint64_t *components, *inputs, *outputs, *counts, *found;
    uint16_t *wires, *current, *following, *standing, *list;
    uint8_t *file;
} now;

static void lend_all(size_t found_words, size_t file_length)
{
    now.components = (uint64_t *)lend(0, net.components, 8 * lent[COMPONENTS]);
    now.inputs = (uint64_t *)lend(1, net.inputs, 8 * lent[INPUTS]);
    now.outputs = (uint64_t *)lend(2, net.outputs, 8 * lent[OUTPUTS]);
    now.wires = (uint16_t *)lend(3, net.wires, 2 * lent[WIRES]);
    now.current = (uint16_t *)lend(4, net.current, 2 * lent[CURRENT]);
    now.following = (uint16_t *)lend(5, net.following, 2 * lent[FOLLOWING]);
    now.standing = (uint16_t *)lend(6, net.standing, 2 * lent[STANDING]);
    now.list = (uint16_t *)lend(7, list, 2 * lent[LIST]);
    now.counts = (uint64_t *)lend(8, net.counts, sizeof net.counts);
    now.found = (uint64_t *)lend(9, found, 8 * found_words);
    now.file = (uint8_t *)lend(10, file, file_length);
}

static void back_all(size_t found_words)
{
    back(net.components, now.components, 8 * lent[COMPONENTS]);
    back(net.inputs, now.inputs, 8 * lent[INPUTS]);
    back(net.outputs, now.outputs, 8 * lent[OUTPUTS]);
    back(net.wires, now.wires, 2 * lent[WIRES]);
    back(net.current, now.current, 2 * lent[CURRENT]);
    back(net.following, now.following, 2 * lent[FOLLOWING]);
    back(net.standing, now.standing, 2 * lent[STANDING]);
    back(list, now.list, 2 * lent[LIST]);
    back(net.counts, now.counts, sizeof net.counts);
    back(found, now.found, 8 * found_words);
}

#define NOW                                                                                                                   \
    now.components, lent[COMPONENTS], now.inputs, lent[INPUTS], now.outputs, lent[OUTPUTS], now.wires, lent[WIRES],            \
        now.current, lent[CURRENT], now.following, lent[FOLLOWING], now.standing, lent[STANDING], now.counts, BERXUNDAR_COUNTS

/* What the slow engine is lent for one call: its tables and the kept file. */
static struct {
    uint64_t *inputs, *outputs, *counts;
    uint16_t *current, *following, *standing;
    uint8_t *file;
} slowly;

static void lend_slow(void)
{
    slowly.file = (uint8_t *)lend(17, kept, kept_length);
    slowly.inputs = (uint64_t *)lend(23, slow.inputs, 8 * lent[SLOW_INPUTS]);
    slowly.outputs = (uint64_t *)lend(24, slow.outputs, 8 * lent[SLOW_OUTPUTS]);
    slowly.current = (uint16_t *)lend(25, slow.current, 2 * lent[SLOW_CURRENT]);
    slowly.following = (uint16_t *)lend(26, slow.following, 2 * lent[SLOW_FOLLOWING]);
    slowly.standing = (uint16_t *)lend(27, slow.standing, 2 * lent[SLOW_STANDING]);
    slowly.counts = (uint64_t *)lend(28, slow.counts, sizeof slow.counts);
}

static void back_slow(void)
{
    back(slow.inputs, slowly.inputs, 8 * lent[SLOW_INPUTS]);
    back(slow.outputs, slowly.outputs, 8 * lent[SLOW_OUTPUTS]);
    back(slow.current, slowly.current, 2 * lent[SLOW_CURRENT]);
    back(slow.following, slowly.following, 2 * lent[SLOW_FOLLOWING]);
    back(slow.standing, slowly.standing, 2 * lent[SLOW_STANDING]);
    back(slow.counts, slowly.counts, sizeof slow.counts);
}

#define SLOWLY                                                                                                                \
    slowly.file, kept_length, slowly.inputs, lent[SLOW_INPUTS], slowly.outputs, lent[SLOW_OUTPUTS], slowly.current,            \
        lent[SLOW_CURRENT], slowly.following, lent[SLOW_FOLLOWING], slowly.standing, lent[SLOW_STANDING], slowly.counts,       \
        SLOW_COUNTS

/* ---- The earlier record of two that meet, in the answer of a call that judges, with the file as it was lent to the call. ---- */

/* Where records meet, the second judgement must give the same number and position, or the line says that it does not. */
static int as_judged(uint32_t answer, const uint8_t *bytes, size_t length)
{
    switch (berxundar_number(answer)) {
    case BERXUNDAR_ENTERED_TWICE:
    case BERXUNDAR_WIRE_AND_MAP:
    case BERXUNDAR_TWO_MAPS: return berxundar_judge_pair(bytes, length) >> 16 == answer;
    default: return 1;
    }
}

/* A file that is not refused is not judged again. */
static unsigned earlier_in(uint32_t answer, const uint8_t *bytes, size_t length)
{
    return answer == 0 ? 0 : berxundar_earlier(answer, bytes, length);
}

/* ---- Commands: each answers 0 where the input ends inside it. ---- */

static int judge(void)
{
    size_t length;
    uint64_t answer;
    if (!take_file(file, &length))
        return 0;
    lend_all(0, length);
    answer = berxundar_judge_pair(now.file, length + OVERSTATED);
    triple("judge", answer >> 32, answer >> 16 & 65535u, answer & 65535u);
    return 1;
}

/* Both judgements of a file, as they are given. */
static int host(void)
{
    size_t length;
    uint32_t first;
    if (!take_file(file, &length))
        return 0;
    lend_all(0, length);
    first = berxundar_judge(now.file, length + OVERSTATED);
    pair("host", first, berxundar_judge_pair(now.file, length + OVERSTATED));
    return 1;
}

static int load(void)
{
    size_t length;
    uint32_t answer;
    if (!take_file(file, &length))
        return 0;
    lend_all(0, length);
    answer = berxundar_load(now.file, length, NOW);
    back_all(0);
    triple(as_judged(answer, now.file, length) ? "load" : "load and judge differ", berxundar_number(answer),
        berxundar_position(answer), earlier_in(answer, now.file, length));
    return 1;
}

/* A round, in the stored order of wires or in the one of its table, which is only read. */
static int run_round(int ordered)
{
    uint8_t bytes[8];
    uint64_t *bits, evaluated = net.counts[CURRENT], time, i;
    uint16_t *row;
    uint32_t answer;
    if (!take(bytes, 8))
        return 0;
    time = number_in(bytes, 8);
    lend_all(0, 0);
    bits = (uint64_t *)lend(19, moved, 8 * lent[MOVED]);
    row = (uint16_t *)lend(29, order, 2 * lent[ORDER]);
    answer = ordered ? berxundar_round_ordered(NOW, time, row, lent[ORDER], bits, lent[MOVED])
                     : berxundar_round(NOW, time, bits, lent[MOVED]);
    back_all(0);
    back(moved, bits, 8 * lent[MOVED]);
    put_words("round");
    put_number(berxundar_number(answer));
    put_number(berxundar_position(answer));
    for (i = 0; answer == 0 && i < evaluated && i < BERXUNDAR_MOVED; i++)
        put_number(moved[i]);
    put('\n');
    return 1;
}

/* An edit, of the old way or one that goes first. */
static int edit(int first)
{
    uint8_t bytes[10];
    uint32_t answer;
    size_t index;
    uint64_t number;
    if (!take(bytes, 10))
        return 0;
    index = (size_t)number_in(bytes, 2);
    number = number_in(bytes + 2, 8);
    lend_all(0, 0);
    answer = first ? berxundar_edit(NOW, index, number) : berxundar_edit_standing(NOW, index, number);
    back_all(0);
    pair(first ? "first" : "edit", berxundar_number(answer), berxundar_position(answer));
    return 1;
}

static int run(void)
{
    uint8_t bytes[10];
    uint32_t answer;
    if (!take(bytes, 10))
        return 0;
    found[0] = found[1] = found[2] = 0;
    lend_all(3, 0);
    answer = berxundar_run_until_calm(NOW, number_in(bytes, 8), (uint16_t)number_in(bytes + 8, 2), now.found, 3);
    back_all(3);
    put_words("run");
    put_number(berxundar_number(answer));
    put_number(found[0]);
    put_number(found[1]);
    put_number(found[2]);
    put('\n');
    return 1;
}

/* The check of the tables alone is made beside it: it must give the same number, or the line says that it does not. */
static int ask_calm(void)
{
    uint32_t answer, check;
    found[0] = 0;
    lend_all(1, 0);
    answer = berxundar_calm(NOW, now.found, 1);
    check = berxundar_check(NOW);
    back_all(1);
    pair(check == answer ? "calm" : "check and calm differ", berxundar_number(answer), found[0]);
    return 1;
}

static int ask_satisfied(void)
{
    uint32_t answer;
    found[0] = 0;
    lend_all(1, 0);
    answer = berxundar_satisfied(NOW, now.found, 1);
    back_all(1);
    pair("satisfied", berxundar_number(answer), found[0]);
    return 1;
}

static int ask_index(void)
{
    uint8_t bytes[4];
    uint32_t answer;
    if (!take(bytes, 4))
        return 0;
    found[0] = 0;
    lend_all(1, 0);
    answer = berxundar_index(NOW, (uint32_t)number_in(bytes, 4), now.found, 1);
    back_all(1);
    pair("index", berxundar_number(answer), found[0]);
    return 1;
}

static int ask_value(void)
{
    uint8_t bytes[5];
    uint32_t answer;
    if (!take(bytes, 5))
        return 0;
    found[0] = found[1] = 0;
    lend_all(2, 0);
    answer = berxundar_value(NOW, bytes[0], (size_t)number_in(bytes + 1, 2), (size_t)number_in(bytes + 3, 2), now.found, 2);
    back_all(2);
    triple("value", berxundar_number(answer), found[0], found[1]);
    return 1;
}

static int ask_list(int targets)
{
    uint8_t bytes[2];
    uint32_t answer;
    size_t index, i;
    if (!take(bytes, 2))
        return 0;
    index = (size_t)number_in(bytes, 2);
    found[0] = 0;
    lend_all(1, 0);
    answer = targets ? berxundar_targets(NOW, index, now.list, lent[LIST], now.found, 1)
                     : berxundar_sources(NOW, index, now.list, lent[LIST], now.found, 1);
    back_all(1);
    put_words(targets ? "targets" : "sources");
    put_number(berxundar_number(answer));
    for (i = 0; i < found[0] && i < BERXUNDAR_NAMES; i++)
        put_number(list[i]);
    put('\n');
    return 1;
}

static int keep_file(void) { return take_file(kept, &kept_length); }

/* A path: so many ids. */
static int take_path(size_t *count, uint32_t *path)
{
    uint8_t bytes[4];
    size_t i;
    if (!take(bytes, 2))
        return 0;
    *count = (size_t)number_in(bytes, 2);
    if (PATH < *count)
        return 0;
    for (i = 0; i < *count; i++) {
        if (!take(bytes, 4))
            return 0;
        path[i] = (uint32_t)number_in(bytes, 4);
    }
    return 1;
}

static int look(void)
{
    static uint32_t path[PATH];
    uint8_t *drawing;
    uint64_t *shown, *wide;
    size_t count, i;
    uint32_t answer;
    if (!take_path(&count, path))
        return 0;
    found[0] = found[1] = 0;
    lend_all(2, 0);
    shown = (uint64_t *)lend(15, box.numbers, 8 * lent[NUMBERS]);
    wide = (uint64_t *)lend(16, box.widths, 8 * lent[WIDTHS]);
    drawing = (uint8_t *)lend(17, kept, kept_length);
    answer = berxundar_look(drawing, kept_length, NOW, (uint32_t *)lend(18, path, 4 * count), count, shown, lent[NUMBERS], wide,
        lent[WIDTHS], now.found, 2);
    back_all(2);
    back(box.numbers, shown, 8 * lent[NUMBERS]);
    back(box.widths, wide, 8 * lent[WIDTHS]);
    put_words(as_judged(answer, drawing, kept_length) ? "look" : "look and judge differ");
    put_number(berxundar_number(answer));
    put_number(berxundar_position(answer));
    put_number(earlier_in(answer, drawing, kept_length));
    put_number(found[0]);
    put_number(found[1]);
    for (i = 0; i < found[0] + found[1] && i < BERXUNDAR_SHOWN; i++) {
        put_number(box.numbers[i]);
        put_number(box.widths[i]);
    }
    put('\n');
    return 1;
}

/* The kept file is mended; the seven tables are not lent. */
static int mend(void)
{
    uint64_t *words;
    uint8_t *drawing, *bytes;
    uint16_t *positions;
    uint32_t answer;
    size_t i;
    found[0] = found[1] = 0;
    words = (uint64_t *)lend(9, found, 16);
    drawing = (uint8_t *)lend(17, kept, kept_length);
    bytes = (uint8_t *)lend(21, mended, lent[MENDED]);
    positions = (uint16_t *)lend(22, dropped, 2 * lent[DROPPED]);
    answer = berxundar_mend(drawing, kept_length, bytes, lent[MENDED], positions, lent[DROPPED], words, 2);
    back(found, words, 16);
    back(mended, bytes, lent[MENDED]);
    back(dropped, positions, 2 * lent[DROPPED]);
    put_words("mend");
    put_number(berxundar_number(answer));
    put_number(berxundar_position(answer));
    put_number(found[0]);
    put_number(found[1]);
    put_words("\ndropped");
    for (i = 0; i < found[1] && i < BERXUNDAR_DROPPED; i++)
        put_number(dropped[i]);
    put_words("\nbytes");
    for (i = 0; i < found[0] && i < LONGEST; i++)
        put_number(mended[i]);
    put('\n');
    return 1;
}

/* ---- The slow engine: its calls are lent the kept file and its own tables, and none of the seven. ---- */

/* The word of a call and its answer's number and position, with the earlier record. The line is still open. */
static void slow_answer(const char *word, uint32_t answer)
{
    put_words(as_judged(answer, slowly.file, kept_length) ? word : "slow and judge differ");
    put_number(berxundar_number(answer));
    put_number(berxundar_position(answer));
    put_number(earlier_in(answer, slowly.file, kept_length));
}

static int slow_load(void)
{
    uint32_t answer;
    lend_slow();
    answer = berxundar_slow_load(SLOWLY);
    back_slow();
    slow_answer("load", answer);
    put('\n');
    return 1;
}

static int slow_round(void)
{
    uint8_t bytes[8];
    uint64_t *bits, evaluated = slow.counts[SLOW_CURRENT - SLOW_INPUTS], i;
    uint32_t answer;
    if (!take(bytes, 8))
        return 0;
    lend_slow();
    bits = (uint64_t *)lend(19, moved, 8 * lent[MOVED]);
    answer = berxundar_slow_round(SLOWLY, number_in(bytes, 8), bits, lent[MOVED]);
    back_slow();
    back(moved, bits, 8 * lent[MOVED]);
    slow_answer("round", answer);
    for (i = 0; answer == 0 && i < evaluated && i < BERXUNDAR_MOVED; i++)
        put_number(moved[i]);
    put('\n');
    return 1;
}

static int slow_edit(int first)
{
    uint8_t bytes[10];
    uint32_t answer;
    size_t index;
    uint64_t number;
    if (!take(bytes, 10))
        return 0;
    index = (size_t)number_in(bytes, 2);
    number = number_in(bytes + 2, 8);
    lend_slow();
    answer = first ? berxundar_slow_edit(SLOWLY, index, number) : berxundar_slow_edit_standing(SLOWLY, index, number);
    back_slow();
    slow_answer(first ? "first" : "edit", answer);
    put('\n');
    return 1;
}

static int slow_run(void)
{
    uint8_t bytes[10];
    uint64_t *words;
    uint32_t answer;
    if (!take(bytes, 10))
        return 0;
    found[0] = found[1] = found[2] = 0;
    lend_slow();
    words = (uint64_t *)lend(9, found, sizeof found);
    answer = berxundar_slow_run_until_calm(SLOWLY, number_in(bytes, 8), (uint16_t)number_in(bytes + 8, 2), words, 3);
    back_slow();
    back(found, words, sizeof found);
    slow_answer("run", answer);
    put_number(found[0]);
    put_number(found[1]);
    put_number(found[2]);
    put('\n');
    return 1;
}

/* ---- One component alone. ---- */

/* So many values, each a number of 64 bits and a width of 8. */
static int take_values(size_t *count, uint64_t *numbers, uint64_t *widths)
{
    uint8_t bytes[9];
    size_t i;
    if (!take(bytes, 2))
        return 0;
    *count = (size_t)number_in(bytes, 2);
    if (VALUES < *count)
        return 0;
    for (i = 0; i < *count; i++) {
        if (!take(bytes, 9))
            return 0;
        numbers[i] = number_in(bytes, 8);
        widths[i] = bytes[8];
    }
    return 1;
}

static int evaluate(void)
{
    static uint64_t inputs[VALUES], entering[VALUES], outputs[VALUES], leaving[VALUES];
    uint8_t head[23];
    uint64_t *leave, *bits;
    size_t n, m, i;
    uint32_t answer;
    if (!take(head, 23) || !take_values(&n, inputs, entering) || !take_values(&m, outputs, leaving))
        return 0;
    found[0] = 0;
    leave = (uint64_t *)lend(11, outputs, 8 * m);
    bits = (uint64_t *)lend(20, found, 8);
    answer = berxundar_evaluate(head[0], (uint16_t)number_in(head + 1, 2), (uint16_t)number_in(head + 3, 2),
        (uint16_t)number_in(head + 5, 2), number_in(head + 7, 8), (uint64_t *)lend(12, inputs, 8 * n), n,
        (uint64_t *)lend(13, entering, 8 * n), n, leave, m, (uint64_t *)lend(14, leaving, 8 * m), m, number_in(head + 15, 8),
        bits, 1);
    back(outputs, leave, 8 * m);
    back(found, bits, 8);
    put_words("evaluate");
    put_number(berxundar_number(answer));
    put_number(found[0]);
    for (i = 0; i < m; i++)
        put_number(outputs[i]);
    put('\n');
    return 1;
}

/* ---- What is shown is the program's own tables, whatever is lent. ---- */

/* Whether each of so many counts is within its table. */
static int all_within(size_t count, const uint64_t *counts, const size_t *full)
{
    size_t i;
    for (i = 0; i < count; i++)
        if (full[i] < counts[i]) {
            put_words("counts past the tables\n");
            return 0;
        }
    return 1;
}

static int within(void) { return all_within(TABLES, net.counts, full_entries); }

static void show_net(void)
{
    size_t i;
    if (!within())
        return;
    line("net", 4, net.counts);
    for (i = 0; i < net.counts[COMPONENTS]; i++)
        line("component", 8, net.components + 8 * i);
    for (i = 0; i < net.counts[WIRES]; i++)
        short_line("wire", 4, net.wires + 4 * i);
}

static void show_tables(size_t inputs, size_t outputs, size_t current, size_t following, size_t standing, int all)
{
    line(table_names[INPUTS], inputs, net.inputs);
    line(table_names[OUTPUTS], outputs, net.outputs);
    if (all)
        short_line(table_names[WIRES], BERXUNDAR_WIRE_WORDS, net.wires);
    short_line(table_names[CURRENT], current, net.current);
    short_line(table_names[FOLLOWING], following, net.following);
    short_line(table_names[STANDING], standing, net.standing);
}

static void show_state(void)
{
    if (within())
        show_tables((size_t)net.counts[INPUTS], (size_t)net.counts[OUTPUTS], (size_t)net.counts[CURRENT],
            (size_t)net.counts[FOLLOWING], (size_t)net.counts[STANDING], 0);
}

/* The slow engine's state, in the same words. A table of its has as many words as entries. */
static void show_slow_state(void)
{
    if (!all_within(SLOW_COUNTS, slow.counts, full_words + SLOW_INPUTS))
        return;
    line(table_names[INPUTS], (size_t)slow.counts[0], slow.inputs);
    line(table_names[OUTPUTS], (size_t)slow.counts[1], slow.outputs);
    short_line(table_names[CURRENT], (size_t)slow.counts[2], slow.current);
    short_line(table_names[FOLLOWING], (size_t)slow.counts[3], slow.following);
    short_line(table_names[STANDING], (size_t)slow.counts[4], slow.standing);
}

static void show_all(void)
{
    line(table_names[COMPONENTS], BERXUNDAR_COMPONENT_WORDS, net.components);
    show_tables(BERXUNDAR_INPUTS, BERXUNDAR_OUTPUTS, BERXUNDAR_NAMES, BERXUNDAR_NAMES, BERXUNDAR_NAMES, 1);
}

/* The words of a table, where they are of 64 bits; else a null pointer. */
static uint64_t *longs_of(unsigned table)
{
    switch (table) {
    case COMPONENTS: return net.components;
    case INPUTS: return net.inputs;
    case OUTPUTS: return net.outputs;
    case NUMBERS: return box.numbers;
    case WIDTHS: return box.widths;
    case MOVED: return moved;
    case SLOW_INPUTS: return slow.inputs;
    case SLOW_OUTPUTS: return slow.outputs;
    default: return NULL;
    }
}

/* The same of 16 bits. */
static uint16_t *shorts_of(unsigned table)
{
    switch (table) {
    case WIRES: return net.wires;
    case CURRENT: return net.current;
    case FOLLOWING: return net.following;
    case STANDING: return net.standing;
    case LIST: return list;
    case DROPPED: return dropped;
    case ORDER: return order;
    case SLOW_CURRENT: return slow.current;
    case SLOW_FOLLOWING: return slow.following;
    case SLOW_STANDING: return slow.standing;
    default: return NULL;
    }
}

/* A word of a table; those of the mended file are bytes. */
static uint64_t word_of(unsigned table, size_t at)
{
    if (longs_of(table))
        return longs_of(table)[at];
    return table == MENDED ? mended[at] : shorts_of(table)[at];
}

static int show_table(void)
{
    uint8_t table;
    size_t i;
    if (!take(&table, 1))
        return 0;
    if (LENT <= table) {
        put_words("no table\n");
        return 1;
    }
    put_words("table");
    put_number(table);
    for (i = 0; i < full_words[table]; i++)
        put_number(word_of(table, i));
    put('\n');
    return 1;
}

static void write_word(unsigned table, size_t at, uint64_t word)
{
    if (LENT <= table || full_words[table] <= at)
        return;
    if (longs_of(table))
        longs_of(table)[at] = word;
    else if (table == MENDED && word < 256)
        mended[at] = (uint8_t)word;
    else if (table != MENDED && word < 65536)
        shorts_of(table)[at] = (uint16_t)word;
}

static int write_one(void)
{
    uint8_t bytes[11];
    if (!take(bytes, 11))
        return 0;
    write_word(bytes[0], (size_t)number_in(bytes + 1, 2), number_in(bytes + 3, 8));
    return 1;
}

static int write_words(void)
{
    uint8_t head[5], bytes[8];
    uint64_t i;
    if (!take(head, 5))
        return 0;
    for (i = 0; i < number_in(head + 3, 2); i++) {
        if (!take(bytes, 8))
            return 0;
        write_word(head[0], (size_t)(number_in(head + 1, 2) + i), number_in(bytes, 8));
    }
    return 1;
}

static int set_count(void)
{
    uint8_t bytes[9];
    if (!take(bytes, 9))
        return 0;
    if (bytes[0] < TABLES)
        net.counts[bytes[0]] = number_in(bytes + 1, 8);
    else if (SLOW_INPUTS <= bytes[0] && bytes[0] <= SLOW_STANDING)
        slow.counts[bytes[0] - SLOW_INPUTS] = number_in(bytes + 1, 8);
    return 1;
}

static int lend_less(void)
{
    uint8_t bytes[3];
    size_t words;
    if (!take(bytes, 3))
        return 0;
    words = (size_t)number_in(bytes + 1, 2);
    if (bytes[0] < LENT)
        lent[bytes[0]] = words < full_words[bytes[0]] ? words : full_words[bytes[0]];
    return 1;
}

static int answer_one(uint8_t letter)
{
    switch (letter) {
    case 'J': return judge();
    case 'H': return host();
    case 'L': return load();
    case 'N': show_net(); return 1;
    case 'P': show_state(); return 1;
    case 'A': show_all(); return 1;
    case 'R': return run_round(0);
    case 'O': return run_round(1);
    case 'E': return edit(0);
    case 'G': return edit(1);
    case 'U': return run();
    case 'C': return ask_calm();
    case 'Q': return ask_satisfied();
    case 'I': return ask_index();
    case 'V': return ask_value();
    case 'S': return ask_list(0);
    case 'T': return ask_list(1);
    case 'X': return evaluate();
    case 'W': return write_one();
    case 'K': return set_count();
    case 'Z': return lend_less();
    case 'F': return keep_file();
    case 'D': return show_table();
    case 'Y': return write_words();
    case 'B': return look();
    case 'M': return mend();
    case 'l': return slow_load();
    case 'r': return slow_round();
    case 'e': return slow_edit(0);
    case 'g': return slow_edit(1);
    case 'u': return slow_run();
    case 'p': show_slow_state(); return 1;
    default: return 0;
    }
}

int main(void)
{
    size_t i, table;
    uint64_t left;
    uint8_t letter;
    for (table = 0; table < LENT; table++) {
        for (i = 0; i < full_words[table]; i++)
            write_word((unsigned)table, i, 7);
        lent[table] = full_words[table];
    }
    for (left = COMMANDS; left && take(&letter, 1); left--) {
        if (!answer_one(letter)) {
            put_words("bad command\n");
            flush();
            break;
        }
        flush();
    }
    return 0;
}

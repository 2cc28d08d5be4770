/*
 * compare FILE [STEPS]: for fault finding, runs a drawing in both engines side by side, in the flat one, which has it in tables,
 * and in the slow one, which reads it from the file in each call. Says the first place where they differ, or that they agree.
 *
 * Both load it. Then each step, of which there are 100 where STEPS names no other number, is a round at the step's number as time.
 * Before it, where the drawing is calm, the next component that can be set is set in both, to the number after the one that it has;
 * by turns it goes first, or stands, the old way. After each call the answers are compared, the counts, every number at a port and
 * every entry of the three lists, and after a round the bits of what moved. What cannot be set is tried once: the refusals are
 * compared as well. Which component is set, and when, goes by the flat engine.
 *
 * A line on standard output says how it went: `FILE: both engines agree after the load and N rounds, with M edits between`, or
 * `FILE: the engines differ after round K`, with lines behind it that say where; a refused drawing is said as judge says it. It is
 * proved that the engines agree: where they do not, the fault is in the machine, in the compiler or in how this was put together.
 * The file `-` is standard input. Exit status: 0 they agree; 1 they differ, or the drawing is refused; 2 the file cannot be read or
 * a word is none.
 */
#include "berxundar.h"
#include "file.h"
#include "number.h"
#include "record.h"
#include "refusal.h"

#include <stdio.h>
#include <time.h>
#include <unistd.h>

/* How many steps there are where none are named, and the most that can be. */
#define STEPS 100
#define MOST_STEPS 65535

#define STANDARD_ERROR 2

static const char *name;
static uint8_t bytes[FILE_ROOM];
static size_t length;

/* What both engines are lent. The tables are large: they stand here and not on the stack. */
static berxundar_net flat;
static berxundar_slow_net slow;
static uint64_t flat_moved[BERXUNDAR_MOVED];
static uint64_t slow_moved[BERXUNDAR_MOVED];

/* How far both are: the rounds and the edits that are done; whether the last call was an edit, and which. */
static unsigned long rounds;
static unsigned long edits;
static struct {
    int last, stands;
    size_t index;
    uint64_t number;
} edit;

static const char *plural(unsigned long count) { return count == 1 ? "" : "s"; }

/* ---- How far it is. ---- */

/* Whether a line that says so stands unended on the terminal. */
static int progress;

/* Says on a terminal how far it is, once a second; where it is done sooner, nothing. */
static void say_progress(unsigned long steps)
{
    static clock_t said;
    clock_t now = clock();
    if (now - said < CLOCKS_PER_SEC || !isatty(STANDARD_ERROR))
        return;
    fprintf(stderr, "\r%s: round %lu of %lu", name, rounds, steps);
    said = now;
    progress = 1;
}

static void end_progress(void)
{
    if (progress)
        fprintf(stderr, "\n");
    progress = 0;
}

/* ---- Where they differ. ---- */

/* The words of the component at an index in the flat engine's table. */
static const uint64_t *words_of(uint64_t index) { return flat.components + BERXUNDAR_WORDS_OF_COMPONENT * index; }

static void say_component(uint64_t index)
{
    refusal_say_component(stdout, bytes, length, record_primitive(bytes, length, (size_t)index));
}

/* Says after which call they differ, and begins the line that says where. */
static void say_when(void)
{
    end_progress();
    printf("%s: the engines differ after ", name);
    if (edit.last)
        printf("the edit before round %lu\n", rounds + 1);
    else if (rounds)
        printf("round %lu\n", rounds);
    else
        printf("the load\n");
    if (edit.last) {
        printf("    the edit, %s, sets ", edit.stands ? "the old way" : "which goes first");
        say_component(edit.index);
        printf(", to %llu\n", (unsigned long long)edit.number);
    }
    printf("    ");
}

static void say_numbers(uint64_t one, uint64_t other)
{
    printf(": %llu in the flat engine, %llu in the slow one\n", (unsigned long long)one, (unsigned long long)other);
}

static void say_answer(uint32_t answer, const char *engine)
{
    if (answer == 0)
        printf("done");
    else
        refusal_say(stdout, berxundar_number(answer), berxundar_position(answer), berxundar_earlier(answer, bytes, length));
    printf(" in the %s", engine);
}

/* What an engine's refusal means, on standard error. */
static void explain_answer(uint32_t answer, const char *engine)
{
    if (answer != 0)
        refusal_explain(stderr, engine, bytes, length, berxundar_number(answer), berxundar_position(answer),
            berxundar_earlier(answer, bytes, length));
}

/* ---- Whether they agree; where they do not, the first difference is said. ---- */

static int same_answer(uint32_t one, uint32_t other)
{
    if (one == other)
        return 1;
    say_when();
    printf("the answer: ");
    say_answer(one, "flat engine, ");
    say_answer(other, "slow one\n");
    fflush(stdout);
    explain_answer(one, "the flat engine");
    explain_answer(other, "the slow engine");
    return 0;
}

static int same_count(const char *what, uint64_t one, uint64_t other)
{
    if (one == other)
        return 1;
    say_when();
    printf("the count of %s", what);
    say_numbers(one, other);
    return 0;
}

/* The port at a place in the table of inputs or of outputs. */
static void say_port(int outputs, uint64_t place)
{
    uint64_t index = 0, port = place, ports;
    for (; index < flat.counts[BERXUNDAR_COUNT_COMPONENTS]; index++) {
        ports = words_of(index)[outputs ? BERXUNDAR_WORD_OUTPUTS : BERXUNDAR_WORD_INPUTS];
        if (port < ports)
            break;
        port -= ports;
    }
    printf("%s %llu of ", outputs ? "output" : "input", (unsigned long long)port);
    say_component(index);
}

static int same_ports(int outputs)
{
    const uint64_t *one = outputs ? flat.outputs : flat.inputs, *other = outputs ? slow.outputs : slow.inputs;
    uint64_t count = flat.counts[outputs ? BERXUNDAR_COUNT_OUTPUTS : BERXUNDAR_COUNT_INPUTS], place;
    for (place = 0; place < count; place++)
        if (one[place] != other[place]) {
            say_when();
            say_port(outputs, place);
            say_numbers(one[place], other[place]);
            return 0;
        }
    return 1;
}

static void say_entry(uint64_t index, const char *engine)
{
    printf("%llu (", (unsigned long long)index);
    say_component(index);
    printf(") in the %s", engine);
}

/* `what` is the list's name, and `count` how many entries it has in both engines. */
static int same_entries(const char *what, const uint16_t *one, const uint16_t *other, uint64_t count)
{
    uint64_t place;
    for (place = 0; place < count; place++)
        if (one[place] != other[place]) {
            say_when();
            printf("place %llu of %s: ", (unsigned long long)place, what);
            say_entry(one[place], "flat engine, ");
            say_entry(other[place], "slow one\n");
            return 0;
        }
    return 1;
}

static int same_list(const char *what, const uint16_t *one, uint64_t count, const uint16_t *other, uint64_t other_count)
{
    return same_count(what, count, other_count) && same_entries(what, one, other, count);
}

static int same_state(void)
{
    return same_count("inputs", flat.counts[BERXUNDAR_COUNT_INPUTS], slow.counts[BERXUNDAR_SLOW_COUNT_INPUTS])
        && same_count("outputs", flat.counts[BERXUNDAR_COUNT_OUTPUTS], slow.counts[BERXUNDAR_SLOW_COUNT_OUTPUTS])
        && same_ports(0) && same_ports(1)
        && same_list("the current list", flat.current, flat.counts[BERXUNDAR_COUNT_CURRENT], slow.current,
            slow.counts[BERXUNDAR_SLOW_COUNT_CURRENT])
        && same_list("the following list", flat.following, flat.counts[BERXUNDAR_COUNT_FOLLOWING], slow.following,
            slow.counts[BERXUNDAR_SLOW_COUNT_FOLLOWING])
        && same_list("the standing list", flat.standing, flat.counts[BERXUNDAR_COUNT_STANDING], slow.standing,
            slow.counts[BERXUNDAR_SLOW_COUNT_STANDING]);
}

/* Of each of the components that a round has evaluated, which of its outputs moved. */
static int same_bits(const uint16_t *evaluated, uint64_t count)
{
    uint64_t place;
    unsigned bit = 0;
    for (place = 0; place < count; place++)
        if (flat_moved[place] != slow_moved[place]) {
            while (((flat_moved[place] ^ slow_moved[place]) >> bit & 1) == 0)
                bit++;
            say_when();
            printf("the bit of output %u of ", bit);
            say_component(evaluated[place]);
            say_numbers(flat_moved[place] >> bit & 1, slow_moved[place] >> bit & 1);
            return 0;
        }
    return 1;
}

/* ---- Edits. ---- */

/* How each component is set next, if it can be. */
enum { UNTRIED = 0, GOES_FIRST = 1, STANDS = 2, NOT_SETTABLE = 3 };
static uint8_t way[BERXUNDAR_COMPONENTS];

/* The number that a component is set to: the one after that which it has, and 0 after the largest; 0 where it has none to set. */
static uint64_t next_number(const uint64_t *words)
{
    if (words[BERXUNDAR_WORD_KIND] == BERXUNDAR_SWITCH)
        return !flat.outputs[words[BERXUNDAR_WORD_FIRST_OUTPUT]];
    if (words[BERXUNDAR_WORD_KIND] == BERXUNDAR_INPUT) {
        uint64_t largest = UINT64_MAX >> (BERXUNDAR_BITS - words[BERXUNDAR_WORD_PARAMETER]);
        uint64_t number = flat.inputs[words[BERXUNDAR_WORD_FIRST_INPUT]];
        return number < largest ? number + 1 : 0;
    }
    return 0;
}

/* Sets the component at an index in both engines: whether they agree. */
static int edit_at(size_t index)
{
    uint32_t one, other;
    edit.last = 1;
    edit.stands = way[index] == STANDS || (way[index] == UNTRIED && edits % 2);
    edit.index = index;
    edit.number = next_number(words_of(index));
    one = edit.stands ? berxundar_net_edit_standing(&flat, index, edit.number) : berxundar_net_edit(&flat, index, edit.number);
    other = edit.stands ? berxundar_slow_net_edit_standing(&slow, bytes, length, index, edit.number)
                        : berxundar_slow_net_edit(&slow, bytes, length, index, edit.number);
    way[index] = one != 0 ? NOT_SETTABLE : edit.stands ? GOES_FIRST : STANDS;
    edits += one == 0;
    return same_answer(one, other) && same_state();
}

/* Sets the next component that can be set, where the drawing is calm: whether the engines agree. */
static int edit_where_calm(void)
{
    static size_t next;
    uint64_t calm = 0, count = flat.counts[BERXUNDAR_COUNT_COMPONENTS], tried;
    if (berxundar_net_calm(&flat, &calm) != 0 || !calm)
        return 1;
    for (tried = 0; tried < count; tried++) {
        size_t index = next;
        next = index + 1 < count ? index + 1 : 0;
        if (way[index] == NOT_SETTABLE)
            continue;
        if (!edit_at(index))
            return 0;
        if (way[index] != NOT_SETTABLE)
            return 1;
    }
    return 1;
}

/* ---- Steps. ---- */

/* A round at its number as time: whether the engines agree. It puts the next list in the place of the current one, to whose entries
 * the bits belong: so the list is copied first. */
static int round_next(void)
{
    static uint16_t evaluated[BERXUNDAR_NAMES];
    uint64_t count = flat.counts[BERXUNDAR_COUNT_CURRENT], i;
    uint32_t one, other;
    for (i = 0; i < count; i++)
        evaluated[i] = flat.current[i];
    rounds++;
    edit.last = 0;
    one = berxundar_net_round(&flat, rounds, flat_moved);
    other = berxundar_slow_net_round(&slow, bytes, length, rounds, slow_moved);
    return same_answer(one, other) && same_state() && (one != 0 || same_bits(evaluated, count));
}

/* Runs the steps: whether the engines agree. */
static int run(unsigned long steps)
{
    int agree = 1;
    while (agree && rounds < steps) {
        agree = edit_where_calm() && round_next();
        say_progress(steps);
    }
    end_progress();
    return agree;
}

static void say_agreed(void)
{
    printf("%s: both engines agree after the load", name);
    if (rounds)
        printf(" and %lu round%s, with %lu edit%s between", rounds, plural(rounds), edits, plural(edits));
    printf("\n");
}

static void say_refused(uint32_t answer)
{
    printf("%s: ", name);
    refusal_say(stdout, berxundar_number(answer), berxundar_position(answer), berxundar_earlier(answer, bytes, length));
    printf("\n");
    fflush(stdout);
    explain_answer(answer, name);
}

/* Loads the drawing into both engines and runs it: the exit status that it asks for. */
static int compare(unsigned long steps)
{
    uint32_t one = berxundar_net_load(&flat, bytes, length), other = berxundar_slow_net_load(&slow, bytes, length);
    if (one != 0 && one == other) {
        say_refused(one);
        return 1;
    }
    if (!same_answer(one, other) || !same_state() || !run(steps))
        return 1;
    say_agreed();
    return 0;
}

/* A number of steps in a word: whether it is one. */
static int steps_in(const char *word, unsigned long *steps)
{
    uint64_t number;
    const char *end = number_in(word, &number);
    if (!end || *end || MOST_STEPS < number) {
        fprintf(stderr, "%s: this is no number of steps, which are 0 to %d\n", word, MOST_STEPS);
        return 0;
    }
    *steps = (unsigned long)number;
    return 1;
}

int main(int argc, char **argv)
{
    unsigned long steps = STEPS;
    long read;
    int status;
    if (argc < 2 || 3 < argc) {
        fprintf(stderr, "usage: compare FILE [STEPS]\n");
        return 2;
    }
    if (argc == 3 && !steps_in(argv[2], &steps))
        return 2;
    name = argv[1];
    read = file_read(name, bytes);
    if (read < 0)
        return 2;
    length = (size_t)read;
    status = compare(steps);
    if (fflush(stdout) != 0 || ferror(stdout)) {
        perror("compare: standard output");
        return 2;
    }
    return status;
}

/*
 * Berxundar, the engine of the screens at lift gates, for a host program in C (C99) or C++ (C++11). `host/install DIR` puts this
 * header and libberxundar.a (x86-64) where a build wants them; the archive needs nothing but memcpy and memset. docs/HOST.md
 * leads through it, and host/screen.c is a whole program.
 *
 *     static berxundar_net net;
 *     uint32_t answer = berxundar_net_load(&net, bytes, length);
 *     if (answer != 0)
 *         printf("refused %u at %u: %s\n", berxundar_number(answer), berxundar_position(answer), berxundar_words(answer));
 *     else
 *         berxundar_net_run_until_calm(&net, time, 100, NULL, NULL, NULL);
 *
 * A DRAWING FILE is a row of records of 24 bytes; docs/SPECIFICATION.md, "The drawing file", says what they hold. A load makes a
 * net of it: components (no composites, which are boxes of the drawing alone), each with inputs and outputs, joined by wires. A
 * round evaluates the components of the current list, sends what changed along the wires, and says which outputs moved. An edit
 * sets a Switch, or an Input that no wire enters, and the next round evaluates it.
 *
 * AN ID is the number that a component has in the drawing. AN INDEX is its place in the tables, from 0. Only `berxundar_index`
 * takes an id, and `berxundar_look` ids in a row; every other call names a component by its index, and a port by its number among
 * the component's inputs, or outputs, from 0.
 *
 * THE TABLES are lent by the caller: the engine keeps nothing between calls and takes no memory. A `berxundar_net` (below) is one
 * struct with all of them. A call on tables is refused with 2 where one of them is shorter than its full size; it may be longer.
 *
 *   Table       Words            Full size   Holds
 *   components  8 of 64 bits     2,048       of each component: kind, id, width of a Const, parameter, number of inputs, number of
 *                                            outputs, place of its first input in `inputs`, of its first output in `outputs`
 *   inputs      1 of 64 bits     1,024       the number at each input
 *   outputs     1 of 64 bits     1,024       the number at each output
 *   wires       4 of 16 bits     4,096       of each wire: index and output that it leaves, index and input that it enters
 *   current     1 of 16 bits     256         the components of the next round, by index
 *   following   1 of 16 bits     256         what the round after that starts from
 *   standing    1 of 16 bits     256         Clocks; Consts, and what `berxundar_edit_standing` set, until they are evaluated
 *   counts      7 of 64 bits     7           how many components, inputs, outputs and wires are in use, and entries of the three
 *                                            lists: current, following, standing
 *
 * A load fills them and writes the counts; entries past a count keep what they held. A host may read every word. One that writes
 * to the tables itself may do so too: where they are then no net, each call says so (16), and where they are one, what is said
 * of lighting below holds again from the next load on.
 *
 * THE SLOW ENGINE is a second one, for fault finding: its five calls run a drawing straight from the file, with no table of
 * components and none of wires, and work out through the maps where an output leads whenever they have to know. It is lent the
 * file, five tables, which are `inputs`, `outputs`, `current`, `following` and `standing` as above, and five counts; a
 * `berxundar_slow_net` (below) is one struct with all of them. Each call judges the file anew, and says where ports or lists are
 * not the file's (20). It is proved that the same calls, from a load on, leave the same ports and the same three lists in both
 * engines, and give the same bits and the same answers. An index names the same component in both: its place among the components
 * of the file that are no composites, from 0.
 *
 * EVERY CALL takes any bytes, any words and any lengths, ends, and answers a number times 65,536 plus a position: 0 where it is
 * done. The position is a record of the file, from 0, and is 0 in each call that is lent no file. (One judgement,
 * `berxundar_judge_pair`, has a third number below the position: the other of two records that enter one input.) The same words
 * always give the same answer. A call that is refused writes nothing at all.
 *
 * A CALLER MUST KEEP TO THIS
 *   - Each pointer is aligned for its type and has so many entries of that type behind it as the length after it says. With a
 *     length of 0 it may be NULL: that is an empty file, an empty path, or a table of no words.
 *   - No memory is lent twice in one call: no two tables overlap, and neither do a table and the file or the words for an answer.
 *   - While a call runs, nobody else writes to what it is lent, nor reads what it writes. Apart from that calls may run in any
 *     number of threads at once.
 *   - A call takes at most 96 KiB (98,304 bytes) of stack: a mending up to so many, a look or a slow call up to 49,152 bytes, a
 *     load or a judgement up to 32,000, a round or a run until calm up to 12,000, each other call less than 8,000.
 *
 * WHEN TO LIGHT: once a round has run since the load, and `berxundar_satisfied` or `berxundar_calm` says 1. It is proved, for every
 * drawing that a load accepts and whatever calls came after it and after that round: satisfied says 1 exactly where the whole
 * drawing is satisfied, that is where each output has the value of every input that it leads to, and each component's outputs are
 * its function of its inputs, Clocks at the last round's time; and where calm says 1 it is. Calm means that the three lists name
 * nothing but Clocks: no edit waits, and nothing else is left to evaluate. So satisfied may say 1 some rounds before calm does, as
 * long as those that wait have nothing to change; it looks only at what the lists name, and is asked after each round.
 * `berxundar_run_until_calm` runs rounds until calm, up to a limit. Before the first round light nothing.
 *
 * HOW SOON: of a drawing without Clocks whose wires form no cycle, let D be the most components on any chain of wires. With no edit
 * since the load it is calm after D rounds, or after 2 where D is less, and stays so, at whatever times and in whatever orders of
 * wires they run. `./berxundar settles FILE` says D. Of other drawings nothing is promised.
 */
#ifndef BERXUNDAR_H
#define BERXUNDAR_H

#include <stddef.h>
#include <stdint.h>

#ifdef __cplusplus
extern "C" {
#endif

/* Full size, in entries. */
#define BERXUNDAR_COMPONENTS 256
#define BERXUNDAR_INPUTS 1024
#define BERXUNDAR_OUTPUTS 1024
#define BERXUNDAR_WIRES 1024
#define BERXUNDAR_NAMES 256 /* of a list of components */
#define BERXUNDAR_SHOWN 256 /* of a list of numbers, or of widths, that a look shows */
#define BERXUNDAR_MOVED 256 /* of the bits of a round, a word for each component evaluated */
#define BERXUNDAR_ORDER 1024 /* of an order of all wires */
#define BERXUNDAR_COUNTS 7
#define BERXUNDAR_SLOW_COUNTS 5

/* Words of one component and of one wire, and full size in words. */
#define BERXUNDAR_WORDS_OF_COMPONENT 8
#define BERXUNDAR_WORDS_OF_WIRE 4
#define BERXUNDAR_COMPONENT_WORDS (BERXUNDAR_WORDS_OF_COMPONENT * BERXUNDAR_COMPONENTS)
#define BERXUNDAR_WIRE_WORDS (BERXUNDAR_WORDS_OF_WIRE * BERXUNDAR_WIRES)

/* A record of a drawing file, and the longest file that can be accepted, in bytes. */
#define BERXUNDAR_RECORD 24
#define BERXUNDAR_FILE (BERXUNDAR_RECORD * 1024)

/* The longest file that can be mended, one of 1,024 records and a part, and full size of the list of what was dropped. */
#define BERXUNDAR_DAMAGED (BERXUNDAR_FILE + BERXUNDAR_RECORD - 1)
#define BERXUNDAR_DROPPED 1025

/* The most inputs, and the most outputs, of one component; the most bits of a value. */
#define BERXUNDAR_PORTS 64
#define BERXUNDAR_BITS 64

/* Kinds of component. The numbers never move; 14 is kept for later use. A composite stands in drawings only: no net has one.
 * A Majority is high where more of its inputs are high than low. */
enum {
    BERXUNDAR_COMPOSITE = 0, BERXUNDAR_AND = 1, BERXUNDAR_OR = 2, BERXUNDAR_NOT = 3, BERXUNDAR_NAND = 4, BERXUNDAR_NOR = 5,
    BERXUNDAR_XOR = 6, BERXUNDAR_SWITCH = 7, BERXUNDAR_INPUT = 8, BERXUNDAR_OUTPUT = 9, BERXUNDAR_SPLITTER = 10,
    BERXUNDAR_JOINER = 11, BERXUNDAR_CLOCK = 12, BERXUNDAR_CONST = 13, BERXUNDAR_MAJORITY = 15
};

/*
 * The words of a component. WIDTH is the width of a Const and 0 for every other kind. PARAMETER is the bits of an Input, Output,
 * Splitter or Joiner, the period of a Clock, the value of a Const, and else 0.
 */
enum {
    BERXUNDAR_WORD_KIND = 0, BERXUNDAR_WORD_ID = 1, BERXUNDAR_WORD_WIDTH = 2, BERXUNDAR_WORD_PARAMETER = 3,
    BERXUNDAR_WORD_INPUTS = 4, BERXUNDAR_WORD_OUTPUTS = 5, BERXUNDAR_WORD_FIRST_INPUT = 6, BERXUNDAR_WORD_FIRST_OUTPUT = 7
};

/* The words of a wire: it leaves output FROM_OUTPUT of component FROM, and enters input TO_INPUT of component TO. */
enum {
    BERXUNDAR_WIRE_FROM = 0, BERXUNDAR_WIRE_FROM_OUTPUT = 1, BERXUNDAR_WIRE_TO = 2, BERXUNDAR_WIRE_TO_INPUT = 3
};

/* The words of the counts. */
enum {
    BERXUNDAR_COUNT_COMPONENTS = 0, BERXUNDAR_COUNT_INPUTS = 1, BERXUNDAR_COUNT_OUTPUTS = 2, BERXUNDAR_COUNT_WIRES = 3,
    BERXUNDAR_COUNT_CURRENT = 4, BERXUNDAR_COUNT_FOLLOWING = 5, BERXUNDAR_COUNT_STANDING = 6
};

/* The words of the slow engine's counts. */
enum {
    BERXUNDAR_SLOW_COUNT_INPUTS = 0, BERXUNDAR_SLOW_COUNT_OUTPUTS = 1, BERXUNDAR_SLOW_COUNT_CURRENT = 2,
    BERXUNDAR_SLOW_COUNT_FOLLOWING = 3, BERXUNDAR_SLOW_COUNT_STANDING = 4
};

/* Which ports of a component. */
enum { BERXUNDAR_SIDE_INPUTS = 0, BERXUNDAR_SIDE_OUTPUTS = 1 };

/* The numbers that calls give back. `berxundar_words` has a sentence for each. */
enum {
    BERXUNDAR_ACCEPTED = 0, BERXUNDAR_BAD_SIZE = 1, BERXUNDAR_SHORT_TABLE = 2, BERXUNDAR_BAD_RECORD = 3, BERXUNDAR_BAD_ORDER = 4,
    BERXUNDAR_BAD_OWNER = 5, BERXUNDAR_TOO_MANY = 6, BERXUNDAR_KEPT_KIND = 7, BERXUNDAR_UNKNOWN_KIND = 8, BERXUNDAR_BAD_FIELDS = 9,
    BERXUNDAR_SAME_ID = 10, BERXUNDAR_TOO_MANY_PORTS = 11, BERXUNDAR_NO_CHILD = 12, BERXUNDAR_ENTERED_TWICE = 13,
    BERXUNDAR_OUTPUT_MAPS = 14, BERXUNDAR_WIDTHS_DIFFER = 15, BERXUNDAR_NO_NET = 16, BERXUNDAR_NOT_FOUND = 17,
    BERXUNDAR_NOT_SETTABLE = 18, BERXUNDAR_NO_FIT = 19, BERXUNDAR_NO_PATH = 20, BERXUNDAR_NOTHING_BEHIND = 21,
    BERXUNDAR_WIRE_AND_MAP = 22, BERXUNDAR_TWO_MAPS = 23, BERXUNDAR_NO_ORDER = 24
};

/* The number of an answer. */
static inline unsigned berxundar_number(uint32_t answer) { return (unsigned)(answer >> 16); }

/* The position of an answer: a record of the file, from 0. */
static inline unsigned berxundar_position(uint32_t answer) { return (unsigned)(answer & 65535u); }

/*
 * One plain sentence, without a full stop, for an answer or for a number: no refusal's answer is below 65,536 and no number above
 * it, so both may be handed in and both get the number's sentence. Never NULL.
 */
static inline const char *berxundar_words(uint32_t answer_or_number)
{
    switch (answer_or_number < 65536u ? answer_or_number : answer_or_number >> 16) {
    case BERXUNDAR_ACCEPTED: return "accepted, or done";
    case BERXUNDAR_BAD_SIZE: return "the file is empty, is no whole number of records of 24 bytes, or has more than 1,024 records";
    case BERXUNDAR_SHORT_TABLE: return "a table, or the room for an answer, is lent shorter than its full size";
    case BERXUNDAR_BAD_RECORD: return "the record's kind is not 1 to 4, or a field that its kind leaves at 0 is not 0";
    case BERXUNDAR_BAD_ORDER: return "the file does not begin with a component, or the record must stand before the one before it";
    case BERXUNDAR_BAD_OWNER: return "the record's owner is no composite that could hold it here";
    case BERXUNDAR_TOO_MANY: return "there are more than 256 components, or they are nested deeper than 16";
    case BERXUNDAR_KEPT_KIND: return "component kind 14 is kept for later use";
    case BERXUNDAR_UNKNOWN_KIND: return "there is no such kind of component: the kinds are 0 to 13 and 15";
    case BERXUNDAR_BAD_FIELDS: return "the component's inputs, outputs, width or parameter are not allowed for its kind";
    case BERXUNDAR_SAME_ID: return "an earlier component has the same id";
    case BERXUNDAR_TOO_MANY_PORTS: return "the components up to here have more than 1,024 inputs or more than 1,024 outputs";
    case BERXUNDAR_NO_CHILD: return "the record names a child or a port that does not exist";
    case BERXUNDAR_ENTERED_TWICE: return "the record enters an input that an earlier record has entered";
    case BERXUNDAR_OUTPUT_MAPS: return "the composite has not as many output maps as outputs";
    case BERXUNDAR_WIDTHS_DIFFER: return "the connection joins ports of different widths";
    case BERXUNDAR_NO_NET: return "the tables are not a net: load a drawing first, and write to the tables through calls alone";
    case BERXUNDAR_NOT_FOUND: return "there is no component with that index or id, or it has no such port";
    case BERXUNDAR_NOT_SETTABLE: return "only a Switch, or an Input that no wire enters, can be set";
    case BERXUNDAR_NO_FIT: return "the value has another width than its port, or is too large for it";
    case BERXUNDAR_NO_PATH:
        return "the path leads to no component, the file is not the one that the tables were loaded from, or ports or lists are "
               "not the file's";
    case BERXUNDAR_NOTHING_BEHIND: return "an input of the composite leads to no component inside it, so it has no value";
    case BERXUNDAR_WIRE_AND_MAP: return "the input map enters an input that a connection has entered";
    case BERXUNDAR_TWO_MAPS: return "the input map enters an input that an earlier input map has entered";
    case BERXUNDAR_NO_ORDER: return "the order of wires does not name each wire once";
    default: return "this is no number of the engine";
    }
}

/* ---- The twenty-three calls, with every pointer and its length in entries of the pointer's type. What is marked `const` is only
 * read; the numbers behind a colon are those of the refusals that a call can give. ---- */

/* Judges the bytes of a file as a load would, without tables: 1, 3 to 15. Two records that enter one input are 13 here, whatever
 * they are. */
uint32_t berxundar_judge(const uint8_t *bytes, size_t length);

/* Judges the bytes of a file, and says which two records meet: 1, 3 to 15, 22, 23. It answers number times 2^32 plus position times
 * 65,536 plus the earlier record. Where the record at the position enters an input that the earlier record has entered, the number
 * is 13 for two connections, 22 for a connection and an input map, 23 for two input maps; with every other number the earlier
 * record is 0. The answer's upper 48 bits are what a load of the file answers, into tables of full size. */
uint64_t berxundar_judge_pair(const uint8_t *bytes, size_t length);

/* The earlier record of two that meet, of an answer that a load, a look or a slow call on this file gave; 0 where its number tells
 * of no two. */
static inline unsigned berxundar_earlier(uint32_t answer, const uint8_t *bytes, size_t length)
{
    uint64_t pair = berxundar_judge_pair(bytes, length);
    return pair >> 16 == answer ? (unsigned)(pair & 65535u) : 0;
}

/* Loads a file into the tables: 1 to 15, 22, 23. What the tables and the counts held before does not matter. */
uint32_t berxundar_load(const uint8_t *bytes, size_t length,
    uint64_t *components, size_t components_length, uint64_t *inputs, size_t inputs_length, uint64_t *outputs,
    size_t outputs_length, uint16_t *wires, size_t wires_length, uint16_t *current, size_t current_length, uint16_t *following,
    size_t following_length, uint16_t *standing, size_t standing_length, uint64_t *counts, size_t counts_length);

/* A round at a time: 2, 16. Time is any number and may go back; a Clock is high where time modulo twice its period is past its
 * period. moved[k] is which outputs changed of the component that current[k] named before the call: bit i for output i. `moved` has
 * 256 entries or more; those past the components evaluated keep what they held. An evaluation keeps the output of a Switch, so its
 * bit is 0 whatever an edit has set. */
uint32_t berxundar_round(
    const uint64_t *components, size_t components_length, uint64_t *inputs, size_t inputs_length, uint64_t *outputs,
    size_t outputs_length, const uint16_t *wires, size_t wires_length, uint16_t *current, size_t current_length,
    uint16_t *following, size_t following_length, uint16_t *standing, size_t standing_length, uint64_t *counts,
    size_t counts_length, uint64_t time, uint64_t *moved, size_t moved_length);

/* The same with an order of all wires: 2, 16, 24. `order` has 1,024 entries or more, of which the first, as many as there are
 * wires, are numbers of wires, each wire once: wire k is the one whose words begin at wires[4 * k]. Entries past them are not looked
 * at. Each component sends along its own wires in the order in which they stand there, so that the components that it changes are
 * listed in that order; it may be another one in every round. The numbers in order, 0, 1, 2 and so on, give the round above. In
 * whatever orders rounds run, what is said of lighting holds. */
uint32_t berxundar_round_ordered(
    const uint64_t *components, size_t components_length, uint64_t *inputs, size_t inputs_length, uint64_t *outputs,
    size_t outputs_length, const uint16_t *wires, size_t wires_length, uint16_t *current, size_t current_length,
    uint16_t *following, size_t following_length, uint16_t *standing, size_t standing_length, uint64_t *counts,
    size_t counts_length, uint64_t time, const uint16_t *order, size_t order_length, uint64_t *moved, size_t moved_length);

/* Sets the component at an index, a Switch or an Input that no wire enters, and appends it to the current list unless there, so
 * that the very next round evaluates it, whatever edits come between: 2, 16, 17, 18, 19. */
uint32_t berxundar_edit(
    const uint64_t *components, size_t components_length, uint64_t *inputs, size_t inputs_length, uint64_t *outputs,
    size_t outputs_length, const uint16_t *wires, size_t wires_length, uint16_t *current, size_t current_length,
    const uint16_t *following, size_t following_length, const uint16_t *standing, size_t standing_length, uint64_t *counts,
    size_t counts_length, size_t index, uint64_t number);

/* The old way, for hosts that count rounds as they always did: sets it likewise, and appends it to the standing list unless there,
 * so that it is evaluated no later than in the third round after: 2, 16, 17, 18, 19. Both ways may be mixed. */
uint32_t berxundar_edit_standing(
    const uint64_t *components, size_t components_length, uint64_t *inputs, size_t inputs_length, uint64_t *outputs,
    size_t outputs_length, const uint16_t *wires, size_t wires_length, const uint16_t *current, size_t current_length,
    const uint16_t *following, size_t following_length, uint16_t *standing, size_t standing_length, uint64_t *counts,
    size_t counts_length, size_t index, uint64_t number);

/* Rounds at a time, at least one unless `limit` is 0 and at most `limit`, until one leaves calm: 2, 16. found[0] is the rounds run,
 * found[1] the evaluations made, found[2] how many times an output changed, over all rounds; `found` has 3 entries or more. Whether
 * the last round left calm is `berxundar_calm`'s to say. */
uint32_t berxundar_run_until_calm(
    const uint64_t *components, size_t components_length, uint64_t *inputs, size_t inputs_length, uint64_t *outputs,
    size_t outputs_length, const uint16_t *wires, size_t wires_length, uint16_t *current, size_t current_length,
    uint16_t *following, size_t following_length, uint16_t *standing, size_t standing_length, uint64_t *counts,
    size_t counts_length, uint64_t time, uint16_t limit, uint64_t *found, size_t found_length);

/* found[0] is 1 where the three lists name nothing but Clocks, else 0: 2, 16. `found` has 1 entry or more. See WHEN TO LIGHT. */
uint32_t berxundar_calm(
    const uint64_t *components, size_t components_length, const uint64_t *inputs, size_t inputs_length, const uint64_t *outputs,
    size_t outputs_length, const uint16_t *wires, size_t wires_length, const uint16_t *current, size_t current_length,
    const uint16_t *following, size_t following_length, const uint16_t *standing, size_t standing_length, const uint64_t *counts,
    size_t counts_length, uint64_t *found, size_t found_length);

/* found[0] is 1 where each component that a list names, Switches and Clocks aside, has the outputs of its function of its inputs,
 * and each wire that leaves a component named has one number at both ends; else 0: 2, 16. `found` has 1 entry or more. See WHEN
 * TO LIGHT. Where the lists name nothing it costs hardly more than `berxundar_check`. */
uint32_t berxundar_satisfied(
    const uint64_t *components, size_t components_length, const uint64_t *inputs, size_t inputs_length, const uint64_t *outputs,
    size_t outputs_length, const uint16_t *wires, size_t wires_length, const uint16_t *current, size_t current_length,
    const uint16_t *following, size_t following_length, const uint16_t *standing, size_t standing_length, const uint64_t *counts,
    size_t counts_length, uint64_t *found, size_t found_length);

/* found[0] is the index of the component with an id: 2, 16, 17. `found` has 1 entry or more. */
uint32_t berxundar_index(
    const uint64_t *components, size_t components_length, const uint64_t *inputs, size_t inputs_length, const uint64_t *outputs,
    size_t outputs_length, const uint16_t *wires, size_t wires_length, const uint16_t *current, size_t current_length,
    const uint16_t *following, size_t following_length, const uint16_t *standing, size_t standing_length, const uint64_t *counts,
    size_t counts_length, uint32_t id, uint64_t *found, size_t found_length);

/* found[0] is the number at a port, found[1] its width in bits: 2, 16, 17. Side 0 is the inputs, any other the outputs. `found`
 * has 2 entries or more. */
uint32_t berxundar_value(
    const uint64_t *components, size_t components_length, const uint64_t *inputs, size_t inputs_length, const uint64_t *outputs,
    size_t outputs_length, const uint16_t *wires, size_t wires_length, const uint16_t *current, size_t current_length,
    const uint16_t *following, size_t following_length, const uint16_t *standing, size_t standing_length, const uint64_t *counts,
    size_t counts_length, uint32_t side, size_t index, size_t port, uint64_t *found, size_t found_length);

/* The components that wires lead from to a component, by index, ascending and without repeats: 2, 16, 17. found[0] is how many;
 * `list` has 256 entries or more, those past found[0] keep what they held, and `found` has 1 entry or more. */
uint32_t berxundar_sources(
    const uint64_t *components, size_t components_length, const uint64_t *inputs, size_t inputs_length, const uint64_t *outputs,
    size_t outputs_length, const uint16_t *wires, size_t wires_length, const uint16_t *current, size_t current_length,
    const uint16_t *following, size_t following_length, const uint16_t *standing, size_t standing_length, const uint64_t *counts,
    size_t counts_length, size_t index, uint16_t *list, size_t list_length, uint64_t *found, size_t found_length);

/* Those that wires lead to from it, likewise. */
uint32_t berxundar_targets(
    const uint64_t *components, size_t components_length, const uint64_t *inputs, size_t inputs_length, const uint64_t *outputs,
    size_t outputs_length, const uint16_t *wires, size_t wires_length, const uint16_t *current, size_t current_length,
    const uint16_t *following, size_t following_length, const uint16_t *standing, size_t standing_length, const uint64_t *counts,
    size_t counts_length, size_t index, uint16_t *list, size_t list_length, uint64_t *found, size_t found_length);

/* Looks at a component, a composite too: the number and the width in bits of each of its ports: 1 to 16, 20 to 23. `file` is the
 * drawing that the tables were loaded from. `path` names the component by the ids on the way down to it, the root's own not among
 * them: a path of no ids is the root. The inputs come first, then the outputs; found[0] is how many inputs there are, found[1] how
 * many outputs. An output of a composite shows the output inside that its maps lead to; an input shows the input inside that its
 * maps lead to last, and where one leads to none the look is refused (21). `numbers` and `widths` have 256 entries or more, those
 * past the ports keep what they held, and `found` has 2 entries or more. */
uint32_t berxundar_look(const uint8_t *file, size_t file_length,
    const uint64_t *components, size_t components_length, const uint64_t *inputs, size_t inputs_length, const uint64_t *outputs,
    size_t outputs_length, const uint16_t *wires, size_t wires_length, const uint16_t *current, size_t current_length,
    const uint16_t *following, size_t following_length, const uint16_t *standing, size_t standing_length, const uint64_t *counts,
    size_t counts_length, const uint32_t *path, size_t path_length, uint64_t *numbers, size_t numbers_length, uint64_t *widths,
    size_t widths_length, uint64_t *found, size_t found_length);

/* Mends a damaged drawing: `file` is read, `mended` written, and in `dropped` stand the positions of the records that were left out,
 * ascending: 1 to 12, 14, 15. A part record at the end is dropped, its position being the number of whole records before it; and so is
 * each connection or input map that names a child or a port which is not there, or an input that a record kept before it enters.
 * All else stands in order with its bytes: a drawing that is accepted comes out as it is. What comes out is judged; if it is still
 * refused, the answer is that number, with the position in what would have come out, and nothing is written. found[0] is how many
 * bytes are written, found[1] how many positions. `mended` has as many entries as `file`, or more, `dropped` 1,025 or more, those
 * past what is written keep what they held, and `found` has 2 entries or more. A file of no whole record, or of more than 1,024, is
 * refused (1) before all that. No tables are lent. */
uint32_t berxundar_mend(const uint8_t *file, size_t file_length, uint8_t *mended, size_t mended_length, uint16_t *dropped,
    size_t dropped_length, uint64_t *found, size_t found_length);

/* Whether the tables are a net: 2, 16. */
uint32_t berxundar_check(
    const uint64_t *components, size_t components_length, const uint64_t *inputs, size_t inputs_length, const uint64_t *outputs,
    size_t outputs_length, const uint16_t *wires, size_t wires_length, const uint16_t *current, size_t current_length,
    const uint16_t *following, size_t following_length, const uint16_t *standing, size_t standing_length, const uint64_t *counts,
    size_t counts_length);

/* Evaluates one component outside any net: 7, 8, 9 (a composite gives it too), 2, 19. It is handed its fields, as a record has
 * them, the number and the width in bits of each input and of each output, and a time; the numbers of its outputs are written.
 * Each of the four lengths is at least the number of the component's ports on that side; values past them are not looked at.
 * found[0] is which outputs changed: bit i for output i. `found` has 1 entry or more: fewer are 2 before all other numbers. */
uint32_t berxundar_evaluate(uint8_t kind, uint16_t inputs, uint16_t outputs, uint16_t width, uint64_t parameter,
    const uint64_t *input_numbers, size_t input_numbers_length, const uint64_t *input_widths, size_t input_widths_length,
    uint64_t *output_numbers, size_t output_numbers_length, const uint64_t *output_widths, size_t output_widths_length,
    uint64_t time, uint64_t *found, size_t found_length);

/* ---- The five calls of the slow engine, lent the file and no table of components or wires. Each makes a load's checks first, 1
 * to 15, 22 and 23, where 2 is a table of less than full size, less than 5 counts, or too little room for an answer. All but the
 * load then make this one: 20 unless the counts of inputs and outputs are the file's, no list has more than 256 entries, each
 * number at a port fits its width, the output of each Const is its value, and the lists name components of the file, none of them
 * twice in one list. So they want what a load of the same file has written, and what these calls have made of it since. Words past
 * the counts are not looked at. ---- */

/* Loads a file: writes the ports and the three lists that `berxundar_load` writes, and the counts of them: 1 to 15, 22, 23. What
 * the tables and the counts held before does not matter; entries past the counts keep it. */
uint32_t berxundar_slow_load(const uint8_t *file, size_t file_length,
    uint64_t *inputs, size_t inputs_length, uint64_t *outputs, size_t outputs_length, uint16_t *current, size_t current_length,
    uint16_t *following, size_t following_length, uint16_t *standing, size_t standing_length, uint64_t *counts,
    size_t counts_length);

/* A round at a time, as `berxundar_round` runs it, with the same bits in `moved`, which has 256 entries or more: 1 to 15, 20, 22,
 * 23. */
uint32_t berxundar_slow_round(const uint8_t *file, size_t file_length,
    uint64_t *inputs, size_t inputs_length, uint64_t *outputs, size_t outputs_length, uint16_t *current, size_t current_length,
    uint16_t *following, size_t following_length, uint16_t *standing, size_t standing_length, uint64_t *counts,
    size_t counts_length, uint64_t time, uint64_t *moved, size_t moved_length);

/* Sets the component at an index, as `berxundar_edit` does, so that the next round evaluates it: 1 to 15, 17 to 20, 22, 23. Here
 * 20 comes before 17, 18 and 19. */
uint32_t berxundar_slow_edit(const uint8_t *file, size_t file_length,
    uint64_t *inputs, size_t inputs_length, uint64_t *outputs, size_t outputs_length, uint16_t *current, size_t current_length,
    const uint16_t *following, size_t following_length, const uint16_t *standing, size_t standing_length, uint64_t *counts,
    size_t counts_length, size_t index, uint64_t number);

/* The old way, as `berxundar_edit_standing` does it: 1 to 15, 17 to 20, 22, 23, in the same order. Both ways may be mixed. */
uint32_t berxundar_slow_edit_standing(const uint8_t *file, size_t file_length,
    uint64_t *inputs, size_t inputs_length, uint64_t *outputs, size_t outputs_length, const uint16_t *current,
    size_t current_length, const uint16_t *following, size_t following_length, uint16_t *standing, size_t standing_length,
    uint64_t *counts, size_t counts_length, size_t index, uint64_t number);

/* Rounds at a time until one leaves calm, at most `limit`, as `berxundar_run_until_calm` runs them: 1 to 15, 20, 22, 23. found[0]
 * is the rounds run, found[1] the evaluations made, found[2] how many times an output changed; `found` has 3 entries or more. */
uint32_t berxundar_slow_run_until_calm(const uint8_t *file, size_t file_length,
    uint64_t *inputs, size_t inputs_length, uint64_t *outputs, size_t outputs_length, uint16_t *current, size_t current_length,
    uint16_t *following, size_t following_length, uint16_t *standing, size_t standing_length, uint64_t *counts,
    size_t counts_length, uint64_t time, uint16_t limit, uint64_t *found, size_t found_length);

/* ---- A net: all tables at full size, and a short form of each call on it. 42 KiB: let it be static, or a part of a larger
 * struct, and not a variable on the stack. What a call hands back through a pointer is written only where its answer is 0. ----
 * */

typedef struct berxundar_net {
    uint64_t components[BERXUNDAR_COMPONENT_WORDS];
    uint64_t inputs[BERXUNDAR_INPUTS];
    uint64_t outputs[BERXUNDAR_OUTPUTS];
    uint16_t wires[BERXUNDAR_WIRE_WORDS];
    uint16_t current[BERXUNDAR_NAMES];
    uint16_t following[BERXUNDAR_NAMES];
    uint16_t standing[BERXUNDAR_NAMES];
    uint64_t counts[BERXUNDAR_COUNTS];
} berxundar_net;

/* The tables of a net, each with its length, as the calls on tables take them first. */
#define BERXUNDAR_LENT(net)                                                                                               \
    (net)->components, BERXUNDAR_COMPONENT_WORDS, (net)->inputs, BERXUNDAR_INPUTS, (net)->outputs, BERXUNDAR_OUTPUTS,      \
        (net)->wires, BERXUNDAR_WIRE_WORDS, (net)->current, BERXUNDAR_NAMES, (net)->following, BERXUNDAR_NAMES,            \
        (net)->standing, BERXUNDAR_NAMES

/* A net must have been loaded before any other call: one that is all zeros is a net of no components, any other memory gives 16.
 * */
static inline uint32_t berxundar_net_load(berxundar_net *net, const uint8_t *bytes, size_t length)
{
    return berxundar_load(bytes, length, BERXUNDAR_LENT(net), net->counts, BERXUNDAR_COUNTS);
}

/* `moved` has room for 256, or is NULL where nobody asks. */
static inline uint32_t berxundar_net_round(berxundar_net *net, uint64_t time, uint64_t *moved)
{
    uint64_t unasked[BERXUNDAR_MOVED];
    return berxundar_round(BERXUNDAR_LENT(net), net->counts, BERXUNDAR_COUNTS, time, moved ? moved : unasked, BERXUNDAR_MOVED);
}

/* `order` has 1,024 entries, and `moved` room for 256, or is NULL where nobody asks. */
static inline uint32_t berxundar_net_round_ordered(berxundar_net *net, uint64_t time, const uint16_t *order, uint64_t *moved)
{
    uint64_t unasked[BERXUNDAR_MOVED];
    return berxundar_round_ordered(BERXUNDAR_LENT(net), net->counts, BERXUNDAR_COUNTS, time, order, BERXUNDAR_ORDER,
        moved ? moved : unasked, BERXUNDAR_MOVED);
}

/* The next round evaluates it. */
static inline uint32_t berxundar_net_edit(berxundar_net *net, size_t index, uint64_t number)
{
    return berxundar_edit(BERXUNDAR_LENT(net), net->counts, BERXUNDAR_COUNTS, index, number);
}

/* The old way: one of the next three rounds does. */
static inline uint32_t berxundar_net_edit_standing(berxundar_net *net, size_t index, uint64_t number)
{
    return berxundar_edit_standing(BERXUNDAR_LENT(net), net->counts, BERXUNDAR_COUNTS, index, number);
}

/* `rounds`, `evaluations` and `moved` may be NULL. *moved is how many times an output changed, over all rounds. */
static inline uint32_t berxundar_net_run_until_calm(berxundar_net *net, uint64_t time, uint16_t limit, uint64_t *rounds,
    uint64_t *evaluations, uint64_t *moved)
{
    uint64_t found[3] = { 0, 0, 0 };
    uint32_t answer = berxundar_run_until_calm(BERXUNDAR_LENT(net), net->counts, BERXUNDAR_COUNTS, time, limit, found, 3);
    if (answer == 0 && rounds)
        *rounds = found[0];
    if (answer == 0 && evaluations)
        *evaluations = found[1];
    if (answer == 0 && moved)
        *moved = found[2];
    return answer;
}

/* *calm is 1 or 0. Once a round has run since the load, 1 means that the whole drawing is satisfied: its Outputs may be lit. */
static inline uint32_t berxundar_net_calm(const berxundar_net *net, uint64_t *calm)
{
    return berxundar_calm(BERXUNDAR_LENT(net), net->counts, BERXUNDAR_COUNTS, calm, 1);
}

/* *satisfied is 1 or 0. Once a round has run since the load, 1 says exactly that the whole drawing is satisfied. */
static inline uint32_t berxundar_net_satisfied(const berxundar_net *net, uint64_t *satisfied)
{
    return berxundar_satisfied(BERXUNDAR_LENT(net), net->counts, BERXUNDAR_COUNTS, satisfied, 1);
}

static inline uint32_t berxundar_net_index(const berxundar_net *net, uint32_t id, uint64_t *index)
{
    return berxundar_index(BERXUNDAR_LENT(net), net->counts, BERXUNDAR_COUNTS, id, index, 1);
}

/* `width` may be NULL. */
static inline uint32_t berxundar_net_value(const berxundar_net *net, uint32_t side, size_t index, size_t port, uint64_t *number,
    uint64_t *width)
{
    uint64_t found[2] = { 0, 0 };
    uint32_t answer = berxundar_value(BERXUNDAR_LENT(net), net->counts, BERXUNDAR_COUNTS, side, index, port, found, 2);
    if (answer == 0)
        *number = found[0];
    if (answer == 0 && width)
        *width = found[1];
    return answer;
}

/* `list` has room for 256. */
static inline uint32_t berxundar_net_sources(const berxundar_net *net, size_t index, uint16_t *list, uint64_t *count)
{
    return berxundar_sources(BERXUNDAR_LENT(net), net->counts, BERXUNDAR_COUNTS, index, list, BERXUNDAR_NAMES, count, 1);
}

/* `list` has room for 256. */
static inline uint32_t berxundar_net_targets(const berxundar_net *net, size_t index, uint16_t *list, uint64_t *count)
{
    return berxundar_targets(BERXUNDAR_LENT(net), net->counts, BERXUNDAR_COUNTS, index, list, BERXUNDAR_NAMES, count, 1);
}

/* What a look shows: how many inputs and outputs, and the number and width in bits of each port, inputs first, then outputs. */
typedef struct berxundar_box {
    uint64_t inputs;
    uint64_t outputs;
    uint64_t numbers[BERXUNDAR_SHOWN];
    uint64_t widths[BERXUNDAR_SHOWN];
} berxundar_box;

/* `bytes` is the file that the net was loaded from, and `path` the ids down to the box: NULL and 0 for the root. */
static inline uint32_t berxundar_net_look(const berxundar_net *net, const uint8_t *bytes, size_t length, const uint32_t *path,
    size_t path_length, berxundar_box *box)
{
    uint64_t found[2] = { 0, 0 };
    uint32_t answer = berxundar_look(bytes, length, BERXUNDAR_LENT(net), net->counts, BERXUNDAR_COUNTS, path, path_length,
        box->numbers, BERXUNDAR_SHOWN, box->widths, BERXUNDAR_SHOWN, found, 2);
    if (answer == 0) {
        box->inputs = found[0];
        box->outputs = found[1];
    }
    return answer;
}

/* What a mending gives back: how many bytes are left and how many positions were dropped, the bytes, and the positions in the
 * damaged file. 26 KiB: let it be static. */
typedef struct berxundar_mending {
    uint64_t length;
    uint64_t count;
    uint8_t bytes[BERXUNDAR_DAMAGED];
    uint16_t dropped[BERXUNDAR_DROPPED];
} berxundar_mending;

/* Mends the bytes of a file, whatever its length: 1, 3 to 12, 14, 15. No net is lent. */
static inline uint32_t berxundar_mend_file(berxundar_mending *mending, const uint8_t *bytes, size_t length)
{
    uint64_t found[2] = { 0, 0 };
    uint32_t answer = berxundar_mend(bytes, length, mending->bytes, BERXUNDAR_DAMAGED, mending->dropped, BERXUNDAR_DROPPED,
        found, 2);
    if (answer == 0) {
        mending->length = found[0];
        mending->count = found[1];
    }
    return answer;
}

static inline uint32_t berxundar_net_check(const berxundar_net *net)
{
    return berxundar_check(BERXUNDAR_LENT(net), net->counts, BERXUNDAR_COUNTS);
}

/* What the slow engine is lent beside the file, at full size. 18 KiB: let it be static. */
typedef struct berxundar_slow_net {
    uint64_t inputs[BERXUNDAR_INPUTS];
    uint64_t outputs[BERXUNDAR_OUTPUTS];
    uint16_t current[BERXUNDAR_NAMES];
    uint16_t following[BERXUNDAR_NAMES];
    uint16_t standing[BERXUNDAR_NAMES];
    uint64_t counts[BERXUNDAR_SLOW_COUNTS];
} berxundar_slow_net;

/* Its tables and its counts, each with its length, as the slow calls take them behind the file. */
#define BERXUNDAR_SLOW_LENT(net)                                                                                          \
    (net)->inputs, BERXUNDAR_INPUTS, (net)->outputs, BERXUNDAR_OUTPUTS, (net)->current, BERXUNDAR_NAMES, (net)->following,     \
        BERXUNDAR_NAMES, (net)->standing, BERXUNDAR_NAMES, (net)->counts, BERXUNDAR_SLOW_COUNTS

/* It must have been loaded from the file before any other slow call on both. */
static inline uint32_t berxundar_slow_net_load(berxundar_slow_net *net, const uint8_t *file, size_t file_length)
{
    return berxundar_slow_load(file, file_length, BERXUNDAR_SLOW_LENT(net));
}

/* `moved` has room for 256, or is NULL where nobody asks. */
static inline uint32_t berxundar_slow_net_round(berxundar_slow_net *net, const uint8_t *file, size_t file_length, uint64_t time,
    uint64_t *moved)
{
    uint64_t unasked[BERXUNDAR_MOVED];
    return berxundar_slow_round(file, file_length, BERXUNDAR_SLOW_LENT(net), time, moved ? moved : unasked, BERXUNDAR_MOVED);
}

/* The next round evaluates it. */
static inline uint32_t berxundar_slow_net_edit(berxundar_slow_net *net, const uint8_t *file, size_t file_length, size_t index,
    uint64_t number)
{
    return berxundar_slow_edit(file, file_length, BERXUNDAR_SLOW_LENT(net), index, number);
}

/* The old way: one of the next three rounds does. */
static inline uint32_t berxundar_slow_net_edit_standing(berxundar_slow_net *net, const uint8_t *file, size_t file_length,
    size_t index, uint64_t number)
{
    return berxundar_slow_edit_standing(file, file_length, BERXUNDAR_SLOW_LENT(net), index, number);
}

/* `rounds`, `evaluations` and `moved` may be NULL. */
static inline uint32_t berxundar_slow_net_run_until_calm(berxundar_slow_net *net, const uint8_t *file, size_t file_length,
    uint64_t time, uint16_t limit, uint64_t *rounds, uint64_t *evaluations, uint64_t *moved)
{
    uint64_t found[3] = { 0, 0, 0 };
    uint32_t answer = berxundar_slow_run_until_calm(file, file_length, BERXUNDAR_SLOW_LENT(net), time, limit, found, 3);
    if (answer == 0 && rounds)
        *rounds = found[0];
    if (answer == 0 && evaluations)
        *evaluations = found[1];
    if (answer == 0 && moved)
        *moved = found[2];
    return answer;
}

/* One component outside any net: its fields, as a record has them, and the number and width in bits of each of its ports. */
typedef struct berxundar_single {
    uint8_t kind;
    uint16_t inputs;
    uint16_t outputs;
    uint16_t width;
    uint64_t parameter;
    uint64_t input_numbers[BERXUNDAR_PORTS];
    uint64_t input_widths[BERXUNDAR_PORTS];
    uint64_t output_numbers[BERXUNDAR_PORTS];
    uint64_t output_widths[BERXUNDAR_PORTS];
} berxundar_single;

/* Evaluates it at a time: writes its output numbers. *moved is which of them changed, bit i for output i; `moved` may be NULL. */
static inline uint32_t berxundar_single_evaluate(berxundar_single *single, uint64_t time, uint64_t *moved)
{
    uint64_t found = 0;
    uint32_t answer = berxundar_evaluate(single->kind, single->inputs, single->outputs, single->width, single->parameter,
        single->input_numbers, BERXUNDAR_PORTS, single->input_widths, BERXUNDAR_PORTS, single->output_numbers, BERXUNDAR_PORTS,
        single->output_widths, BERXUNDAR_PORTS, time, &found, 1);
    if (answer == 0 && moved)
        *moved = found;
    return answer;
}

#ifdef __cplusplus
}
#endif

#endif

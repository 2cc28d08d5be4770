/*
 * settles FILE: says after how many rounds a drawing is calm at the latest.
 *
 * Loads the drawing, and works out from its wires the most components on any chain of them, D. It is proved that a drawing without
 * Clocks whose wires form no cycle is calm after D rounds, or after 2 where D is less, and stays so, as long as nothing is edited:
 * `FILE: settles: a chain of wires has at most D components, so with no edit after the load it is calm after at most R rounds, and
 * stays so`. Where the wires form a cycle it names one, of as few components as any, by their ids: `FILE: no bound: the wires form
 * a cycle, by id: 3 -> 7 -> 3`. Where there is none, but there are Clocks, it names these: `FILE: no bound: a chain of wires has at
 * most D components, but there is a Clock, by id: 31`. What that means goes to standard error; a refused drawing is said as judge
 * says it. The file `-` is standard input. Exit status: 0 it settles by that bound; 1 no bound is promised, or the drawing is
 * refused; 2 the file cannot be read or none is named.
 */
#include "berxundar.h"
#include "file.h"
#include "record.h"
#include "refusal.h"

#include <stdio.h>

/* Rounds that it may take whatever the wires are like: a Const stands in two lists at first. */
#define ROUNDS_LEAST 2

static const char *name;
static uint8_t bytes[FILE_ROOM];
static size_t length;

/* The tables are large: they stand here and not on the stack. */
static berxundar_net net;

/* A row of components, by index. */
typedef struct {
    size_t count;
    uint16_t index[BERXUNDAR_COMPONENTS];
} row;

static size_t components(void) { return (size_t)net.counts[BERXUNDAR_COUNT_COMPONENTS]; }

static uint64_t word_of(size_t index, size_t word) { return net.components[BERXUNDAR_WORDS_OF_COMPONENT * index + word]; }

/* The words of wire k; a null pointer where there is none. */
static const uint16_t *wire_at(size_t k)
{
    return k < net.counts[BERXUNDAR_COUNT_WIRES] ? net.wires + BERXUNDAR_WORDS_OF_WIRE * k : NULL;
}

/* ---- What the wires are like. ---- */

/* A cycle through a component, of as few as any through it: those that can be reached from it are found one wire after the other,
 * each with the one that it was reached from, until it is reached itself. None where it is not: a row of no components. */
static row cycle_through(size_t start)
{
    static uint16_t from[BERXUNDAR_COMPONENTS], open[BERXUNDAR_COMPONENTS];
    static uint8_t reached[BERXUNDAR_COMPONENTS];
    row found = { 0, { 0 } };
    size_t at, last = 1, k, i;
    for (i = 0; i < components(); i++)
        reached[i] = 0;
    open[0] = (uint16_t)start;
    for (at = 0; at < last && !reached[start]; at++)
        for (k = 0; wire_at(k); k++) {
            size_t to = wire_at(k)[BERXUNDAR_WIRE_TO];
            if (wire_at(k)[BERXUNDAR_WIRE_FROM] != open[at] || reached[to])
                continue;
            reached[to] = 1;
            from[to] = open[at];
            if (to != start)
                open[last++] = (uint16_t)to;
        }
    if (!reached[start])
        return found;
    for (i = from[start], found.count = 1; i != start; i = from[i])
        found.count++;
    for (i = start, k = found.count; k; k--)
        found.index[k - 1] = (uint16_t)(i = from[i]);
    return found;
}

/* A cycle of as few components as any; none where the wires form none. */
static row shortest_cycle(void)
{
    row shortest = { 0, { 0 } };
    size_t i;
    for (i = 0; i < components(); i++) {
        row found = cycle_through(i);
        if (found.count && (!shortest.count || found.count < shortest.count))
            shortest = found;
    }
    return shortest;
}

/* The most components on any chain of wires, which form no cycle: how many end at each, made longer wire by wire until no wire
 * makes any longer. */
static size_t longest_chain(void)
{
    static size_t ending_at[BERXUNDAR_COMPONENTS];
    size_t longest = 0, i, k;
    int longer = 1;
    for (i = 0; i < components(); i++)
        ending_at[i] = 1;
    while (longer)
        for (longer = 0, k = 0; wire_at(k); k++) {
            size_t from = wire_at(k)[BERXUNDAR_WIRE_FROM], to = wire_at(k)[BERXUNDAR_WIRE_TO];
            if (ending_at[to] <= ending_at[from]) {
                ending_at[to] = ending_at[from] + 1;
                longer = 1;
            }
        }
    for (i = 0; i < components(); i++)
        if (longest < ending_at[i])
            longest = ending_at[i];
    return longest;
}

/* All Clocks. */
static row clocks(void)
{
    row found = { 0, { 0 } };
    size_t i;
    for (i = 0; i < components(); i++)
        if (word_of(i, BERXUNDAR_WORD_KIND) == BERXUNDAR_CLOCK)
            found.index[found.count++] = (uint16_t)i;
    return found;
}

/* ---- What is said of it. ---- */

static const char *plural(size_t count) { return count == 1 ? "" : "s"; }

static void say_id(size_t index) { printf("%llu", (unsigned long long)word_of(index, BERXUNDAR_WORD_ID)); }

/* What no bound is promised for, on standard error: why, and a line on each component of a row. */
static void explain(const row *of, const char *why)
{
    size_t i;
    fflush(stdout);
    fprintf(stderr, "%s: %s\n", name, why);
    for (i = 0; i < of->count; i++) {
        fprintf(stderr, "    ");
        refusal_say_component(stderr, bytes, length, record_primitive(bytes, length, of->index[i]));
        fprintf(stderr, "\n");
    }
}

static int say_cycle(const row *cycle)
{
    size_t i;
    printf("%s: no bound: the wires form a cycle, by id: ", name);
    for (i = 0; i < cycle->count; i++) {
        say_id(cycle->index[i]);
        printf(" -> ");
    }
    say_id(cycle->index[0]);
    printf("\n");
    explain(cycle, "what goes round in a cycle may change for ever, so no number of rounds is promised");
    return 1;
}

static int say_clocks(size_t longest, const row *ticking)
{
    size_t i;
    printf("%s: no bound: a chain of wires has at most %lu component%s, but there %s, by id:", name, (unsigned long)longest,
        plural(longest), ticking->count == 1 ? "is a Clock" : "are Clocks");
    for (i = 0; i < ticking->count; i++) {
        printf(" ");
        say_id(ticking->index[i]);
    }
    printf("\n");
    explain(ticking, "a Clock changes with the time, so no number of rounds is promised");
    return 1;
}

static int say_settles(size_t longest)
{
    printf("%s: settles: a chain of wires has at most %lu component%s, so with no edit after the load it is calm after at most %lu "
           "rounds, and stays so\n", name, (unsigned long)longest, plural(longest),
        (unsigned long)(longest < ROUNDS_LEAST ? ROUNDS_LEAST : longest));
    return 0;
}

static int say_refused(uint32_t answer)
{
    unsigned number = berxundar_number(answer), position = berxundar_position(answer);
    unsigned earlier = berxundar_earlier(answer, bytes, length);
    printf("%s: ", name);
    refusal_say(stdout, number, position, earlier);
    printf("\n");
    fflush(stdout);
    refusal_explain(stderr, name, bytes, length, number, position, earlier);
    return 1;
}

/* Says what is promised of the drawing: the exit status that it asks for. */
static int settles(void)
{
    uint32_t answer = berxundar_net_load(&net, bytes, length);
    row cycle, ticking;
    if (answer != 0)
        return say_refused(answer);
    cycle = shortest_cycle();
    if (cycle.count)
        return say_cycle(&cycle);
    ticking = clocks();
    return ticking.count ? say_clocks(longest_chain(), &ticking) : say_settles(longest_chain());
}

int main(int argc, char **argv)
{
    long read;
    int status;
    if (argc != 2) {
        fprintf(stderr, "usage: settles FILE\n");
        return 2;
    }
    name = argv[1];
    read = file_read(name, bytes);
    if (read < 0)
        return 2;
    length = (size_t)read;
    status = settles();
    if (fflush(stdout) != 0 || ferror(stdout)) {
        perror("settles: standard output");
        return 2;
    }
    return status;
}

/*
 * Our side of tests/instructions: instructions FILE makes each call below on a drawing, between two marks for tests/plugin.c, TIMES
 * times over; instructions FILE TIME makes only the round with all listed, at that time, for a drawing with Clocks, whose lists are
 * never empty; instructions FILE mend makes only the mending, of a file that may be damaged, and prints what came of it.
 * oracle/src/count.rs is the Rust's side: those of the calls that the Rust has, by the same numbers. Prints what it loaded, and how many
 * rounds it took to settle (0 with a TIME): both sides must print the same. Leaves with 1 where a call is refused or does not do what its
 * name says.
 */
#include "berxundar.h"
#include "file.h"

#include <stdio.h>
#include <stdlib.h>
#include <string.h>

enum { START = 1, STOP = 2, MARK = 0x6d61726b };

/* The first is to warm up; the others must be counted alike. */
#define TIMES 3
#define ROUNDS_MAX 10000

static uint8_t bytes[FILE_ROOM];
static size_t length;
static uint64_t at = 5;

/* What a call works on, and the states that it is made on: after a load; settled, with empty lists, with one listed, with all listed. */
static berxundar_net net, loaded, quiet, one, idle;
static uint64_t found, moved[BERXUNDAR_MOVED];

/* The stored order of any wires. */
static uint16_t order[BERXUNDAR_ORDER];

/* What a slow call works on: the ports and lists of the same states. */
static berxundar_slow_net slow;

/* What a mending writes. */
static uint8_t mended[FILE_ROOM];
static uint16_t dropped[BERXUNDAR_DROPPED];
static uint64_t written[2];
static uint32_t mends; /* the answer of the last mending */

static uint32_t nothing(void) { return 0; }
static uint32_t judge(void) { return berxundar_judge(bytes, length); }
static uint32_t load(void) { return berxundar_net_load(&net, bytes, length); }
static uint32_t run_round(void) { return berxundar_net_round(&net, at, moved); }
static uint32_t run_round_ordered(void) { return berxundar_net_round_ordered(&net, at, order, moved); }
static uint32_t run(void) { return berxundar_net_run_until_calm(&net, at, ROUNDS_MAX, NULL, NULL, NULL); }
static uint32_t check(void) { return berxundar_net_check(&net); }
static uint32_t satisfied(void) { return berxundar_net_satisfied(&net, &found); }

/* It may be refused: what it answers is printed. */
static uint32_t mend(void)
{
    mends = berxundar_mend(bytes, length, mended, length, dropped, BERXUNDAR_DROPPED, written, 2);
    return 0;
}

static uint32_t slow_load(void) { return berxundar_slow_net_load(&slow, bytes, length); }
static uint32_t slow_round(void) { return berxundar_slow_net_round(&slow, bytes, length, at, moved); }

static const struct {
    const char *name;
    const berxundar_net *from;
    uint32_t (*call)(void);
} calls[] = { { "empty", &loaded, nothing }, { "judge", &loaded, judge }, { "load", &loaded, load },
    { "round, all listed", &loaded, run_round }, { "idle, all listed", &idle, run_round }, { "quiet", &quiet, run_round },
    { "net check", &quiet, check }, { "satisfied, none listed", &quiet, satisfied }, { "satisfied, one listed", &one, satisfied },
    { "satisfied, all listed", &idle, satisfied }, { "run until calm", &loaded, run }, { "mend", &loaded, mend },
    { "slow load", &loaded, slow_load }, { "slow round, all listed", &loaded, slow_round }, { "slow idle, all listed", &idle, slow_round },
    { "slow quiet", &quiet, slow_round }, { "round in an order, all listed", &loaded, run_round_ordered },
    { "idle in an order, all listed", &idle, run_round_ordered }, { "quiet in an order", &quiet, run_round_ordered } };

/* A system call that no kernel has, which the plugin sees. */
static void mark(long what, long name)
{
    long answer;
    __asm__ volatile("syscall" : "=a"(answer) : "0"((long)MARK), "D"(what), "S"(name) : "rcx", "r11", "memory");
    (void)answer;
}

static int same_values(const berxundar_net *a, const berxundar_net *b)
{
    return memcmp(a->inputs, b->inputs, sizeof a->inputs) == 0 && memcmp(a->outputs, b->outputs, sizeof a->outputs) == 0;
}

/* Lays the ports and the lists of a net where the slow calls take them. */
static void lay_slow(const berxundar_net *from)
{
    memcpy(slow.inputs, from->inputs, sizeof slow.inputs);
    memcpy(slow.outputs, from->outputs, sizeof slow.outputs);
    memcpy(slow.current, from->current, sizeof slow.current);
    memcpy(slow.following, from->following, sizeof slow.following);
    memcpy(slow.standing, from->standing, sizeof slow.standing);
    slow.counts[BERXUNDAR_SLOW_COUNT_INPUTS] = from->counts[BERXUNDAR_COUNT_INPUTS];
    slow.counts[BERXUNDAR_SLOW_COUNT_OUTPUTS] = from->counts[BERXUNDAR_COUNT_OUTPUTS];
    slow.counts[BERXUNDAR_SLOW_COUNT_CURRENT] = from->counts[BERXUNDAR_COUNT_CURRENT];
    slow.counts[BERXUNDAR_SLOW_COUNT_FOLLOWING] = from->counts[BERXUNDAR_COUNT_FOLLOWING];
    slow.counts[BERXUNDAR_SLOW_COUNT_STANDING] = from->counts[BERXUNDAR_COUNT_STANDING];
}

/* Runs the loaded net until its lists are empty, and lays the three settled states: how many rounds that took. */
static int settle(void)
{
    uint64_t i, components = loaded.counts[BERXUNDAR_COUNT_COMPONENTS];
    int rounds = 0;
    net = loaded;
    do {
        if (berxundar_net_round(&net, at, moved) != 0 || ROUNDS_MAX < ++rounds)
            return -1;
    } while (net.counts[BERXUNDAR_COUNT_CURRENT] + net.counts[BERXUNDAR_COUNT_FOLLOWING] + net.counts[BERXUNDAR_COUNT_STANDING]);
    quiet = net;
    idle = net;
    for (i = 0; i < components; i++)
        idle.current[i] = (uint16_t)i;
    idle.counts[BERXUNDAR_COUNT_CURRENT] = components;
    one = net;
    one.current[0] = (uint16_t)(components / 2);
    one.counts[BERXUNDAR_COUNT_CURRENT] = 1;
    return rounds;
}

/* Makes one call TIMES times, each between marks. */
static int measure(size_t which)
{
    int i;
    for (i = 0; i < TIMES; i++) {
        uint32_t answer;
        net = *calls[which].from;
        lay_slow(&net);
        found = 1;
        mark(START, (long)which);
        answer = calls[which].call();
        mark(STOP, (long)which);
        if (!found) {
            fprintf(stderr, "instructions: %s: a settled net is not satisfied\n", calls[which].name);
            return 0;
        }
        if (answer != 0) {
            fprintf(stderr, "instructions: %s: refused %u: %s\n", calls[which].name, berxundar_number(answer), berxundar_words(answer));
            return 0;
        }
    }
    return 1;
}

/* Measures all calls, or one of them: the mending, or the round that a load leaves. */
static int measure_all(uint32_t (*only)(void))
{
    size_t i;
    for (i = 0; i < sizeof calls / sizeof calls[0]; i++)
        if (!only || calls[i].call == nothing || (calls[i].call == only && calls[i].from == &loaded))
            if (!measure(i))
                return 0;
    return 1;
}

int main(int argc, char **argv)
{
    int with_time = argc == 3;
    long read = argc == 2 || with_time ? file_read(argv[1], bytes) : -1;
    int rounds = 0;
    size_t i;
    if (read < 0) {
        fprintf(stderr, "usage: instructions FILE [TIME | mend]\n");
        return 1;
    }
    length = (size_t)read;
    for (i = 0; i < BERXUNDAR_ORDER; i++)
        order[i] = (uint16_t)i;
    if (with_time && strcmp(argv[2], "mend") == 0) {
        if (!measure_all(mend))
            return 1;
        printf("refused %u bytes %u dropped %u\n", berxundar_number(mends), (unsigned)written[0], (unsigned)written[1]);
        return 0;
    }
    if (with_time)
        at = strtoull(argv[2], NULL, 10);
    if (berxundar_net_load(&loaded, bytes, length) != 0 || (!with_time && (rounds = settle()) < 0)) {
        fprintf(stderr, "instructions: %s is refused, or does not settle\n", argv[1]);
        return 1;
    }
    if (!measure_all(with_time ? run_round : NULL))
        return 1;
    net = idle;
    if (!with_time && (run_round() != 0 || !same_values(&net, &quiet) || net.counts[BERXUNDAR_COUNT_CURRENT])) {
        fprintf(stderr, "instructions: an idle round changes something\n");
        return 1;
    }
    printf("components %u inputs %u outputs %u wires %u rounds %d\n", (unsigned)loaded.counts[BERXUNDAR_COUNT_COMPONENTS],
        (unsigned)loaded.counts[BERXUNDAR_COUNT_INPUTS], (unsigned)loaded.counts[BERXUNDAR_COUNT_OUTPUTS],
        (unsigned)loaded.counts[BERXUNDAR_COUNT_WIRES], rounds);
    return 0;
}

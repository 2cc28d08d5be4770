/*
 * The example that a screen starts from: screen FILE [--time T] [ID=NUMBER ..]
 *
 * Loads a drawing, sets the Switches and Inputs that are named by id, runs rounds at the time (0 where none is given) until it is
 * settled, and prints a line for each Output: its id, its value, and `lit` or `dark`. It lights only what a settled net says, one
 * that is satisfied after a round: every wire then has one value at both ends and every component's outputs are its function of
 * its inputs. It asks so after each round, and need not wait for calm, which may come some rounds later and changes no value.
 * It keeps what each Output shows, and redraws after a round only those Outputs that the round says moved.
 * Where no round leaves it satisfied within ROUNDS rounds nothing is lit. The file `-` is standard input. Exit status: 0 settled;
 * 1 the file or a setting is refused, or the net is not settled; 2 the file cannot be read or a word is none.
 */
#include "berxundar.h"
#include "file.h"
#include "number.h"
#include "refusal.h"

#include <stdio.h>

/* The most rounds that are run. */
#define ROUNDS 1000

static uint8_t bytes[FILE_ROOM];

/* The tables are large: they stand here and not on the stack. */
static berxundar_net net;

/* ---- The words of the command line. ---- */

/* Whether a word is a number from its start to its end. */
static int is_number(const char *word, uint64_t *number)
{
    const char *end = number_in(word, number);
    return end && !*end;
}

static int same(const char *a, const char *b)
{
    while (*a && *a == *b)
        a++, b++;
    return *a == *b;
}

/* A word ID=NUMBER: whether it is one. */
static int setting_in(const char *word, uint32_t *id, uint64_t *number)
{
    uint64_t wide;
    const char *at = number_in(word, &wide);
    if (!at || *at != '=' || !is_number(at + 1, number) || UINT32_MAX < wide) {
        fprintf(stderr, "%s: this is no setting of the form ID=NUMBER, as 1=1: an id is 0 to %llu, a number 0 to %llu\n", word,
            (unsigned long long)UINT32_MAX, (unsigned long long)UINT64_MAX);
        return 0;
    }
    *id = (uint32_t)wide;
    return 1;
}

/* Takes the words apart: the path and the time; the settings move to the front of the words, and are counted. */
static int take_words(int count, char **words, const char **path, uint64_t *time, int *settings)
{
    int i;
    *path = NULL;
    *time = 0;
    *settings = 0;
    for (i = 0; i < count; i++) {
        uint32_t id;
        uint64_t number;
        if (same(words[i], "--time")) {
            if (++i == count || !is_number(words[i], time)) {
                fprintf(stderr, "--time: a number from 0 to 18446744073709551615 must follow\n");
                return 0;
            }
        } else if (!*path) {
            *path = words[i];
        } else if (!setting_in(words[i], &id, &number)) {
            return 0;
        } else {
            words[(*settings)++] = words[i];
        }
    }
    if (!*path)
        fprintf(stderr, "usage: screen FILE [--time T] [ID=NUMBER ..]\n");
    return *path != NULL;
}

/* ---- Settings. ---- */

/* Whether an edit can set a component: a Switch, or an Input that no wire enters. */
static int settable(uint64_t index)
{
    uint64_t kind = net.components[BERXUNDAR_WORDS_OF_COMPONENT * index + BERXUNDAR_WORD_KIND], i;
    for (i = 0; i < net.counts[BERXUNDAR_COUNT_WIRES]; i++)
        if (net.wires[BERXUNDAR_WORDS_OF_WIRE * i + BERXUNDAR_WIRE_TO] == index)
            return 0;
    return kind == BERXUNDAR_SWITCH || kind == BERXUNDAR_INPUT;
}

/* Says which components can be set, by id. */
static void say_settable(void)
{
    uint64_t i;
    int any = 0;
    for (i = 0; i < net.counts[BERXUNDAR_COUNT_COMPONENTS]; i++)
        if (settable(i)) {
            fprintf(stderr, "%s %llu", any++ ? "" : "    to do: set what can be set in this drawing, by id:",
                (unsigned long long)net.components[BERXUNDAR_WORDS_OF_COMPONENT * i + BERXUNDAR_WORD_ID]);
        }
    fprintf(stderr, "%s\n", any ? "" : "    nothing can be set in this drawing");
}

/* Says why setting a component is refused, and what can be set. */
static int refused(const char *word, uint32_t answer, uint64_t index)
{
    const uint64_t *words = net.components + BERXUNDAR_WORDS_OF_COMPONENT * index;
    uint64_t bits = words[BERXUNDAR_WORD_KIND] == BERXUNDAR_INPUT ? words[BERXUNDAR_WORD_PARAMETER] : 1;
    fprintf(stderr, "%s: refused %u: %s\n", word, berxundar_number(answer), berxundar_words(answer));
    if (berxundar_number(answer) == BERXUNDAR_NO_FIT || berxundar_number(answer) == BERXUNDAR_NOT_SETTABLE)
        fprintf(stderr, "    the component is %s, id %llu", refusal_kind_name(words[BERXUNDAR_WORD_KIND]),
            (unsigned long long)words[BERXUNDAR_WORD_ID]);
    if (berxundar_number(answer) == BERXUNDAR_NO_FIT)
        fprintf(stderr, ", which holds 0 to %llu\n", (unsigned long long)(UINT64_MAX >> (BERXUNDAR_BITS - bits)));
    else if (berxundar_number(answer) == BERXUNDAR_NOT_SETTABLE)
        fprintf(stderr, "%s\n", words[BERXUNDAR_WORD_KIND] == BERXUNDAR_INPUT ? ", and a wire enters it" : "");
    say_settable();
    return 1;
}

/* Sets the component that a word ID=NUMBER names, which the next round evaluates: the exit status that it asks for. */
static int set(const char *word)
{
    uint32_t id, answer;
    uint64_t number, index = 0;
    if (!setting_in(word, &id, &number))
        return 2;
    answer = berxundar_net_index(&net, id, &index);
    if (answer == 0)
        answer = berxundar_net_edit(&net, (size_t)index, number);
    return answer == 0 ? 0 : refused(word, answer, index);
}

/* ---- Running and redrawing. ---- */

/* What is shown of each Output, by its index. A load leaves 0 at every Output, and only a round moves one: what an edit sets is a
 * Switch or an Input. */
static uint64_t shown[BERXUNDAR_COMPONENTS];

/* Redraws a component that moved, where it is an Output; others are not on the screen. */
static void redraw(size_t index)
{
    const uint64_t *words = net.components + BERXUNDAR_WORDS_OF_COMPONENT * index;
    if (words[BERXUNDAR_WORD_KIND] == BERXUNDAR_OUTPUT)
        shown[index] = net.outputs[words[BERXUNDAR_WORD_FIRST_OUTPUT]];
}

/* Runs a round at the time and redraws what moved: what the round answered. The bits stand in the order of the current list as it
 * was before the round, which puts the next list in its place: so the list is copied first. */
static uint32_t round_and_redraw(uint64_t time)
{
    static uint16_t evaluated[BERXUNDAR_NAMES];
    static uint64_t moved[BERXUNDAR_MOVED];
    uint64_t count = net.counts[BERXUNDAR_COUNT_CURRENT], i;
    uint32_t answer;
    for (i = 0; i < count; i++)
        evaluated[i] = net.current[i];
    answer = berxundar_net_round(&net, time, moved);
    for (i = 0; i < count && answer == 0; i++)
        if (moved[i])
            redraw(evaluated[i]);
    return answer;
}

/* Runs rounds at the time until one leaves the drawing satisfied, ROUNDS at most: what the last call answered. */
static uint32_t settle(uint64_t time, uint64_t *settled)
{
    uint32_t answer = 0;
    int round;
    for (round = 0; round < ROUNDS && answer == 0 && !*settled; round++) {
        answer = round_and_redraw(time);
        if (answer == 0)
            answer = berxundar_net_satisfied(&net, settled);
    }
    return answer;
}

/* ---- Lighting. ---- */

/* Prints a line for each Output, lit only in a settled net. */
static void show(uint64_t settled)
{
    uint64_t i;
    printf("%s\n", settled ? "settled" : "not settled");
    for (i = 0; i < net.counts[BERXUNDAR_COUNT_COMPONENTS]; i++) {
        const uint64_t *words = net.components + BERXUNDAR_WORDS_OF_COMPONENT * i;
        if (words[BERXUNDAR_WORD_KIND] == BERXUNDAR_OUTPUT)
            printf("%llu %llu %s\n", (unsigned long long)words[BERXUNDAR_WORD_ID], (unsigned long long)shown[i],
                settled && shown[i] ? "lit" : "dark");
    }
}

/* Loads the drawing, sets what is asked for and runs at the time: the exit status where that fails, else 0. */
static int work(const char *path, uint64_t time, char **settings, int count, uint64_t *settled)
{
    long length = file_read(path, bytes);
    uint32_t answer;
    int status = 0, i;
    if (length < 0)
        return 2;
    answer = berxundar_net_load(&net, bytes, (size_t)length);
    if (answer != 0) {
        refusal_explain(stderr, path, bytes, (size_t)length, berxundar_number(answer), berxundar_position(answer),
            berxundar_earlier(answer, bytes, (size_t)length));
        return 1;
    }
    for (i = 0; i < count && !status; i++)
        status = set(settings[i]);
    if (status)
        return status;
    answer = settle(time, settled);
    if (answer != 0)
        fprintf(stderr, "%s: refused %u: %s\n", path, berxundar_number(answer), berxundar_words(answer));
    return answer == 0 ? 0 : 1;
}

int main(int argc, char **argv)
{
    const char *path;
    uint64_t time, settled = 0;
    int settings, status;
    if (!take_words(argc - 1, argv + 1, &path, &time, &settings))
        return 2;
    status = work(path, time, argv + 1, settings, &settled);
    if (status)
        return status;
    show(settled);
    if (fflush(stdout) != 0 || ferror(stdout)) {
        perror("screen: standard output");
        return 2;
    }
    if (!settled)
        fprintf(stderr, "%s: not settled after %d rounds at time %llu, so nothing is lit: does the drawing feed back on itself?\n",
            path, ROUNDS, (unsigned long long)time);
    return settled ? 0 : 1;
}

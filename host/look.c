/*
 * The example of looking into a drawing: look FILE [PATH]
 *
 * Without a path it loads the drawing and prints a line for each box of it, the root first, then every composite: its path, its
 * kind and id, how many inputs and outputs it has; a box stands two blanks further in than the one that holds it. A path is the
 * ids on the way down from the root, the root's own left out, with a slash between two: 3/12. The root's path is a slash, or no
 * word at all between quotes. With a path it loads the drawing, runs it at time 0 until it is settled, and prints the value of
 * each port of the component that the path leads to, a composite or any other. All values are the engine's: `berxundar_look` has
 * them. The file `-` is standard input. Exit status: 0 done; 1 the file or the look is refused, or the net is not settled; 2 the
 * file cannot be read or a word is none.
 */
#include "berxundar.h"
#include "file.h"
#include "number.h"
#include "record.h"
#include "refusal.h"

#include <stdio.h>

/* No component is so deep that its path has more ids: of a longer one that many are kept, and they lead nowhere either. */
#define PATH_ROOM 256

/* The most rounds that are run. */
#define ROUNDS 1000

static uint8_t bytes[FILE_ROOM];
static size_t length;

/* The tables are large: they stand here and not on the stack. */
static berxundar_net net;
static berxundar_box box;

/* ---- Paths. ---- */

/* A path in a word: whether it is one. */
static int path_in(const char *word, uint32_t *path, size_t *path_length)
{
    const char *at = word[0] == '/' && !word[1] ? word + 1 : word;
    *path_length = 0;
    if (!*at)
        return 1;
    for (;; at++) {
        uint64_t id;
        at = number_in(at, &id);
        if (!at || (*at && *at != '/') || UINT32_MAX < id) {
            fprintf(stderr, "%s: this is no path of the form ID/ID/.., as 3/12: each id is a number from 0 to 4294967295\n", word);
            return 0;
        }
        if (*path_length < PATH_ROOM)
            path[(*path_length)++] = (uint32_t)id;
        if (!*at)
            return 1;
    }
}

/* ---- What is shown. ---- */

static const char *plural(uint64_t count) { return count == 1 ? "" : "s"; }

static void print_counts(uint64_t inputs, uint64_t outputs)
{
    printf("%llu input%s, %llu output%s\n", (unsigned long long)inputs, plural(inputs), (unsigned long long)outputs,
        plural(outputs));
}

/* Prints a line for the root and for each composite of an accepted drawing. Each stands behind the one that holds it. */
static void show_boxes(void)
{
    size_t position;
    for (position = 0; record_in(bytes, length, position).form == COMPONENT; position++) {
        record r = record_in(bytes, length, position);
        size_t up;
        if (position && r.kind != BERXUNDAR_COMPOSITE)
            continue;
        for (up = position; up; up = record_in(bytes, length, up).owner)
            printf("  ");
        if (position)
            refusal_say_path(stdout, bytes, length, position);
        else
            printf("/");
        printf(" %s, id %lu, ", refusal_kind_name(r.kind), r.id);
        print_counts(r.a, r.b);
    }
}

static void show_port(const char *side, uint64_t port, uint64_t place)
{
    printf("%s %llu: %llu, %llu bit%s\n", side, (unsigned long long)port, (unsigned long long)box.numbers[place],
        (unsigned long long)box.widths[place], plural(box.widths[place]));
}

static void show_ports(uint64_t settled)
{
    uint64_t port;
    printf("%s\n", settled ? "settled" : "not settled");
    print_counts(box.inputs, box.outputs);
    for (port = 0; port < box.inputs; port++)
        show_port("input", port, port);
    for (port = 0; port < box.outputs; port++)
        show_port("output", port, box.inputs + port);
}

/* Runs the loaded drawing and looks at the component that a path leads to: the exit status that it asks for. */
static int look(const char *name, const uint32_t *path, size_t path_length)
{
    uint64_t settled = 0;
    uint32_t answer = berxundar_net_run_until_calm(&net, 0, ROUNDS, NULL, NULL, NULL);
    if (answer == 0)
        answer = berxundar_net_calm(&net, &settled);
    if (answer == 0)
        answer = berxundar_net_look(&net, bytes, length, path, path_length, &box);
    if (answer != 0) {
        refusal_explain_look(stderr, name, bytes, length, berxundar_number(answer), path, path_length);
        return 1;
    }
    show_ports(settled);
    if (!settled)
        fprintf(stderr, "%s: not settled after %d rounds at time 0, so these values may go on changing\n", name, ROUNDS);
    return settled ? 0 : 1;
}

int main(int argc, char **argv)
{
    uint32_t path[PATH_ROOM], answer;
    size_t path_length = 0;
    long read;
    int status = 0;
    if (argc < 2 || 3 < argc) {
        fprintf(stderr, "usage: look FILE [ID/ID/..]\n");
        return 2;
    }
    if (argc == 3 && !path_in(argv[2], path, &path_length))
        return 2;
    read = file_read(argv[1], bytes);
    if (read < 0)
        return 2;
    length = (size_t)read;
    answer = berxundar_net_load(&net, bytes, length);
    if (answer != 0) {
        refusal_explain(stderr, argv[1], bytes, length, berxundar_number(answer), berxundar_position(answer),
            berxundar_earlier(answer, bytes, length));
        return 1;
    }
    if (argc == 2)
        show_boxes();
    else
        status = look(argv[1], path, path_length);
    if (fflush(stdout) != 0 || ferror(stdout)) {
        perror("look: standard output");
        return 2;
    }
    return status;
}

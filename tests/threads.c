/*
 * Calls on different nets in several threads at once: threads <FILE. Each thread loads the drawing on standard input over and
 * over, sets its first component where that can be set, runs it, in an order of wires too, which all threads are lent and none
 * writes, and looks at that component, which stands right below the root, on a net of its own, makes the same calls in the slow
 * engine, and mends the drawing with a part of a record behind it. Leaves with 1 where a net, what a look showed, which outputs
 * moved, what the slow engine is lent, or what was mended, does not end up with the very words that a single thread's has.
 */
#include "berxundar.h"
#include "file.h"

/* Of the C library, declared here and not by its own header: this is also compiled where that is another machine's. */
int pthread_create(unsigned long *thread, const void *attributes, void *(*start)(void *), void *argument);
int pthread_join(unsigned long thread, void **ended);

#define THREADS 4
#define TURNS 50
#define SLOW_TURNS 10

static uint8_t bytes[FILE_ROOM + 1];
static size_t length;
static uint16_t order[BERXUNDAR_ORDER];

/* What a thread has of its own. */
typedef struct {
    berxundar_net net;
    berxundar_box box;
    uint64_t moved[BERXUNDAR_MOVED];
    berxundar_slow_net slow;
    uint64_t slow_moved[BERXUNDAR_MOVED];
    uint8_t mended[BERXUNDAR_DAMAGED];
    uint16_t dropped[BERXUNDAR_DROPPED];
    uint64_t found[2];
} own;

static own owns[THREADS + 1];

/* The calls that change what is lent, in the slow engine. */
static void work_slowly(berxundar_slow_net *slow, uint64_t *moved)
{
    int turn;
    for (turn = 0; turn < SLOW_TURNS; turn++) {
        berxundar_slow_net_load(slow, bytes, length);
        berxundar_slow_net_run_until_calm(slow, bytes, length, 3, 20, NULL, NULL, NULL);
        berxundar_slow_net_edit(slow, bytes, length, 0, (uint64_t)turn % 2);
        berxundar_slow_net_round(slow, bytes, length, 7, moved);
        berxundar_slow_net_edit_standing(slow, bytes, length, 0, 1);
    }
}

static void *work(void *argument)
{
    own *mine = (own *)argument;
    berxundar_net *net = &mine->net;
    uint32_t first;
    int turn;
    for (turn = 0; turn < TURNS; turn++) {
        berxundar_net_load(net, bytes, length);
        berxundar_net_run_until_calm(net, 3, 20, NULL, NULL, NULL);
        berxundar_net_edit(net, 0, (uint64_t)turn % 2);
        berxundar_net_run_until_calm(net, (uint64_t)turn, 20, NULL, NULL, NULL);
        berxundar_net_round(net, 7, mine->moved);
        berxundar_net_edit(net, 0, (uint64_t)turn % 3 / 2);
        berxundar_net_round_ordered(net, 8, order, mine->moved);
        first = (uint32_t)net->components[BERXUNDAR_WORD_ID];
        berxundar_net_look(net, bytes, length, &first, 1, &mine->box);
        berxundar_mend(bytes, length + 1, mine->mended, sizeof mine->mended, mine->dropped, BERXUNDAR_DROPPED, mine->found, 2);
    }
    work_slowly(&mine->slow, mine->slow_moved);
    return NULL;
}

int main(void)
{
    unsigned long threads[THREADS];
    long read = file_read("-", bytes);
    size_t i, at;
    if (read < 0)
        return 2;
    length = (size_t)read;
    for (i = 0; i < BERXUNDAR_ORDER; i++)
        order[i] = (uint16_t)i;
    work(&owns[THREADS]);
    for (i = 0; i < THREADS; i++)
        if (pthread_create(&threads[i], NULL, work, &owns[i]) != 0)
            return 2;
    for (i = 0; i < THREADS; i++)
        if (pthread_join(threads[i], NULL) != 0)
            return 2;
    for (i = 0; i < THREADS; i++)
        for (at = 0; at < sizeof owns[i]; at++)
            if (((const uint8_t *)&owns[i])[at] != ((const uint8_t *)&owns[THREADS])[at])
                return 1;
    return berxundar_net_check(&owns[0].net) != 0 || owns[0].box.outputs != 1 || owns[0].found[0] != length
        || owns[0].found[1] != 1 || owns[0].slow.counts[BERXUNDAR_SLOW_COUNT_STANDING] != 1;
}

/*
 * refusal_explain, refusal_explain_look, a component and its path, and the words about what a mending drops and leaves, on files
 * that hold anything: drawings whose records name each other at random, noise, lengths that are no multiple of 24, and every
 * number, position and path, right or not. They must end and look at no byte that is not there: each file stands in memory of its
 * own size, for the sanitizers. Prints nothing, and leaves with 0.
 */
#include "refusal.h"
#include "sift.h"

void *malloc(size_t bytes);
void free(void *memory);

static uint32_t state = 1;
static sifted sieve;

static uint32_t below(uint32_t limit)
{
    state = state * 1664525u + 1013904223u;
    return (state >> 8) % limit;
}

/* A record that looks like one: small numbers, so that most names lead somewhere. */
static void draw(uint8_t *record)
{
    size_t i;
    for (i = 0; i < 24; i++)
        record[i] = 0;
    record[0] = (uint8_t)(below(20) ? 1 + below(4) : below(256));
    record[1] = (uint8_t)(below(3) ? 0 : below(17));
    for (i = 2; i < 12; i += 2)
        record[i] = (uint8_t)below(6);
    record[12] = (uint8_t)below(8);
    record[16] = (uint8_t)below(4);
}

/* What is dropped of a file, each position and some that are none; and what is said of the rest, which stands in memory of its own
 * size as well. */
static int sift_any(FILE *nowhere, const uint8_t *bytes, size_t length)
{
    uint8_t *left;
    uint16_t *was;
    size_t i;
    sift(&sieve, bytes, length);
    left = (uint8_t *)malloc(sieve.length + !sieve.length);
    was = (uint16_t *)malloc(sieve.length / 24 * sizeof *was + 1);
    if (!left || !was)
        return 0;
    for (i = 0; i < sieve.length; i++)
        left[i] = sieve.left[i];
    for (i = 0; i < sieve.length / 24; i++)
        was[i] = sieve.was[i];
    for (i = 0; i < length / 24 + 3; i++)
        sift_explain(nowhere, "file", bytes, length, &sieve, i, "dropped");
    sift_explain(nowhere, "file", bytes, length, &sieve, below(65536), "dropped");
    for (i = 0; i < 26; i++)
        refusal_explain_mended(nowhere, "file", sieve.length ? left : NULL, sieve.length, was, (unsigned)i, below(40));
    free(left);
    free(was);
    return 1;
}

int main(void)
{
    FILE *nowhere = fopen("/dev/null", "w");
    int turn;
    if (!nowhere)
        return 2;
    for (turn = 0; turn < 2000; turn++) {
        size_t length = 24 * (size_t)(turn % 500 ? below(40) : 1000 + below(50)) + (below(4) ? 0 : below(24)), i;
        uint8_t *bytes = (uint8_t *)malloc(length + !length);
        uint32_t number;
        if (!bytes)
            return 2;
        for (i = 0; i < length; i++)
            bytes[i] = (uint8_t)below(256);
        for (i = 0; turn % 8 && i + 24 <= length; i += 24)
            draw(bytes + i);
        for (number = 0; number < 26; number++) {
            uint32_t path[4];
            size_t ids = below(5);
            for (i = 0; i < ids; i++)
                path[i] = below(8);
            refusal_explain(nowhere, "file", length ? bytes : NULL, length, number, below(8) ? below(40) : below(65536),
                below(8) ? below(40) : below(65536));
            refusal_explain_look(nowhere, "file", length ? bytes : NULL, length, number, ids ? path : NULL, ids);
            refusal_say_component(nowhere, length ? bytes : NULL, length, below(8) ? below(40) : below(65536));
            refusal_say_path(nowhere, length ? bytes : NULL, length, below(8) ? below(40) : below(65536));
        }
        refusal_explain(nowhere, "file", bytes, length, below(1u << 24) << 8, 0, 0);
        if (!sift_any(nowhere, length ? bytes : NULL, length))
            return 2;
        free(bytes);
    }
    return fclose(nowhere) == 0 ? 0 : 2;
}

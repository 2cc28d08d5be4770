/*
 * sift <FILE: damages the drawing on standard input in many ways, and mends each with the engine and by the words of host/sift.c:
 * both must drop the same records, leave the same bytes and find the same wrong with them. The engine is lent just as much as it
 * asks for, and must keep what lies past what it writes; where it refuses, all. Leaves with 0 where that is so, and where some were
 * mended, some were whole and some refused.
 */
#include "file.h"
#include "sift.h"

#define TURNS 4000
#define UNWRITTEN 0xa5

static uint8_t drawing[FILE_ROOM_DAMAGED], bytes[FILE_ROOM_DAMAGED], mended[FILE_ROOM_DAMAGED];
static uint16_t dropped[BERXUNDAR_DROPPED];
static sifted sieve;
static size_t length;
static uint32_t state = 1;

static uint32_t below(uint32_t limit)
{
    state = state * 1664525u + 1013904223u;
    return (state >> 8) % limit;
}

/* ---- Damage. ---- */

/* A record put in before a position: one that stands there already, with a number in it changed, or a connection or an input map
 * of small numbers. */
static void put_in(size_t position)
{
    uint8_t record[BERXUNDAR_RECORD] = { 0 };
    size_t from = BERXUNDAR_RECORD * position, i;
    if (BERXUNDAR_DAMAGED < length + BERXUNDAR_RECORD)
        return;
    for (i = 0; below(3) && i < BERXUNDAR_RECORD && from + i < length; i++)
        record[i] = bytes[from + i];
    if (record[0] < 2) {
        for (i = 0; i < BERXUNDAR_RECORD; i++)
            record[i] = 0;
        record[0] = (uint8_t)(2 + below(2));
        for (i = 2; i < 12; i += 2)
            record[i] = (uint8_t)(below(2) ? below(6) : 0);
    } else if (below(2)) {
        record[2 + 2 * below(5)] = (uint8_t)below(8);
    }
    for (i = length; from < i; i--)
        bytes[i - 1 + BERXUNDAR_RECORD] = bytes[i - 1];
    for (i = 0; i < BERXUNDAR_RECORD; i++)
        bytes[from + i] = record[i];
    length += BERXUNDAR_RECORD;
}

static void take_out(size_t position)
{
    size_t i;
    if (length < BERXUNDAR_RECORD * (position + 1))
        return;
    length -= BERXUNDAR_RECORD;
    for (i = BERXUNDAR_RECORD * position; i < length; i++)
        bytes[i] = bytes[i + BERXUNDAR_RECORD];
}

static void damage(size_t whole)
{
    uint32_t times;
    length = whole;
    for (times = 0; times < whole; times++)
        bytes[times] = drawing[times];
    for (times = below(6); times; times--) {
        uint32_t records = (uint32_t)(length / BERXUNDAR_RECORD);
        if (below(10))
            put_in(below(records + 1));
        else if (records)
            take_out(below(records));
        if (length && !below(16))
            bytes[below((uint32_t)length)] = (uint8_t)below(256);
    }
    if (!below(3) && length)
        length -= below((uint32_t)(length < 60 ? length : 60));
    if (!below(50))
        length = below(60);
}

/* ---- Both ways of mending. ---- */

/* Whether the list has just the positions that are dropped, and nothing is written behind them. */
static int same_positions(uint64_t count)
{
    size_t position, place = 0;
    for (position = 0; position < BERXUNDAR_DROPPED; position++)
        if (sieve.why[position] != SIFT_KEPT && (count <= place || dropped[place++] != position))
            return 0;
    for (position = place; position < BERXUNDAR_DROPPED; position++)
        if (dropped[position] != UNWRITTEN)
            return 0;
    return place == count;
}

static int same_bytes(uint64_t count)
{
    size_t i;
    for (i = 0; i < FILE_ROOM_DAMAGED; i++)
        if (mended[i] != (i < count ? sieve.left[i] : UNWRITTEN))
            return 0;
    return 1;
}

/* Whether both agree on the damaged bytes; counts how it went: whole, mended, refused. */
static int agree(unsigned long *counts)
{
    uint64_t found[2] = { UNWRITTEN, UNWRITTEN };
    uint32_t answer;
    size_t i;
    for (i = 0; i < FILE_ROOM_DAMAGED; i++)
        mended[i] = UNWRITTEN;
    for (i = 0; i < BERXUNDAR_DROPPED; i++)
        dropped[i] = UNWRITTEN;
    answer = berxundar_mend(bytes, length, mended, length, dropped, BERXUNDAR_DROPPED, found, 2);
    sift(&sieve, bytes, length);
    counts[answer ? 2 : sieve.length < length]++;
    if (answer == 0)
        return berxundar_judge(mended, (size_t)found[0]) == 0 && found[0] == sieve.length && same_bytes(found[0])
            && same_positions(found[1]);
    for (i = 0; i < BERXUNDAR_DROPPED; i++)
        if (dropped[i] != UNWRITTEN)
            return 0;
    return answer == berxundar_judge(sieve.left, sieve.length) && same_bytes(0) && found[0] == UNWRITTEN && found[1] == UNWRITTEN;
}

int main(void)
{
    unsigned long counts[3] = { 0, 0, 0 };
    long read = file_read("-", drawing);
    int turn;
    if (read < 0)
        return 2;
    for (turn = 0; turn < TURNS; turn++) {
        damage((size_t)read);
        if (!agree(counts)) {
            fprintf(stderr, "sift: in turn %d the engine and the words differ\n", turn);
            return 1;
        }
    }
    if (!counts[0] || !counts[1] || !counts[2]) {
        fprintf(stderr, "sift: %lu whole, %lu mended, %lu refused\n", counts[0], counts[1], counts[2]);
        return 1;
    }
    return 0;
}

/*
 * What a mending drops of a drawing file and why, in words for a technician. It is worked out here a second time, from the bytes of
 * the file and for the words alone: what is dropped, and what is written, is the engine's to say.
 */
#ifndef BERXUNDAR_HOST_SIFT_H
#define BERXUNDAR_HOST_SIFT_H

#include "berxundar.h"

#include <stdio.h>

/* Why a record is dropped. An owner that is no composite holds no children; MISSING is a child or a port that is not there, and
 * ENTERED an input that a record kept before enters. */
enum { SIFT_KEPT = 0, SIFT_PART = 1, SIFT_OWNER = 2, SIFT_MISSING = 3, SIFT_ENTERED = 4 };

/* A file sifted: of each position why it is dropped, and the record kept before where that is why; what is left, the length of it,
 * and the position that each record of it had. */
typedef struct {
    uint8_t why[BERXUNDAR_DROPPED];
    uint16_t earlier[BERXUNDAR_DROPPED];
    uint8_t left[BERXUNDAR_FILE];
    size_t length;
    uint16_t was[BERXUNDAR_DROPPED];
} sifted;

/* Sifts the first 1,024 records of a file, and the part of one behind them. */
void sift(sifted *to, const uint8_t *bytes, size_t length);

/* Writes to a stream which record is dropped and why, in several lines. `of` is the same file, sifted; `done` is "dropped" or what
 * else is said of it. A position that was kept here is said without a reason. */
void sift_explain(FILE *to, const char *name, const uint8_t *bytes, size_t length, const sifted *of, size_t position,
    const char *done);

#endif

/*
 * Why a drawing file is refused, in words for a technician: what is wrong, the record in question with the ids of the composites
 * and components that it names, and what to do about it. The number and the position are the engine's; the words are made here,
 * from the bytes of the file, and nothing is decided by them.
 */
#ifndef BERXUNDAR_REFUSAL_H
#define BERXUNDAR_REFUSAL_H

#include <stddef.h>
#include <stdint.h>
#include <stdio.h>

/*
 * Writes several lines to a stream. `name` is what the file is called in them; `number`, `position` and `earlier` are those of the
 * refusal, `earlier` the earlier record of two that meet. Takes any bytes, any number and any position: a record that is not
 * there, or a name that leads nowhere, is said to be so.
 */
void refusal_explain(FILE *to, const char *name, const uint8_t *bytes, size_t length, unsigned number, unsigned position,
    unsigned earlier);

/*
 * The same of a file as a mending leaves it, which is written nowhere where it is refused: `bytes` and `length` are what is left,
 * and `was` has, for each record of it, its position in the damaged file, which is named beside its own.
 */
void refusal_explain_mended(FILE *to, const char *name, const uint8_t *bytes, size_t length, const uint16_t *was, unsigned number,
    unsigned position);

/* A line on the record at a position: what it is, and everything that it names, by id. */
void refusal_say_record(FILE *to, const uint8_t *bytes, size_t length, size_t position);

/* A line on each child and port that a record names and that is not there; where its owner is no composite, a line on that. */
void refusal_say_missing(FILE *to, const uint8_t *bytes, size_t length, size_t position);

/* Whether a number tells of two records that meet, and so names the earlier of them. */
int refusal_names_earlier(unsigned number);

/* The refusal alone, without an end of line: "refused N at P", and where two records meet "refused N at P against E". */
void refusal_say(FILE *to, unsigned number, unsigned position, unsigned earlier);

/*
 * The same of a look along a path of ids, where it is refused at no record: 2, 16, 20, 21. Says how far the path leads, or which
 * inputs lead to nothing.
 */
void refusal_explain_look(FILE *to, const char *name, const uint8_t *bytes, size_t length, unsigned number, const uint32_t *path,
    size_t path_length);

/* The path of the component at a position: the ids on the way down to it from the root, the root's own left out, with a slash between
 * two. */
void refusal_say_path(FILE *to, const uint8_t *bytes, size_t length, size_t position);

/* The component at a position: its kind, its id and the box that it is in, by path, as "Nor, id 4, in box 3". */
void refusal_say_component(FILE *to, const uint8_t *bytes, size_t length, size_t position);

/* The name of a kind of component, as the listing writes it; a null pointer where there is no such kind. */
const char *refusal_kind_name(uint64_t kind);

#endif

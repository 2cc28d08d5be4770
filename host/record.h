/* The records of a drawing file, as they stand there, for the programs of host/. Nothing is judged here. */
#ifndef BERXUNDAR_HOST_RECORD_H
#define BERXUNDAR_HOST_RECORD_H

#include "berxundar.h"

/* The kinds of record: see docs/SPECIFICATION.md, "The drawing file". */
enum { COMPONENT = 1, CONNECTION = 2, INPUT_MAP = 3, OUTPUT_MAP = 4 };

typedef struct {
    unsigned form, kind, owner, a, b, c, d;
    unsigned long id;
    unsigned long long parameter;
} record;

static inline unsigned long long record_number(const uint8_t *bytes, size_t count)
{
    unsigned long long number = 0;
    while (count)
        number = number * 256 + bytes[--count];
    return number;
}

/* The record at a position of a file; one of no form where there is none. */
static inline record record_in(const uint8_t *bytes, size_t length, size_t position)
{
    record r = { 0, 0, 0, 0, 0, 0, 0, 0, 0 };
    if (length / BERXUNDAR_RECORD <= position)
        return r;
    bytes += BERXUNDAR_RECORD * position;
    r.form = bytes[0];
    r.kind = bytes[1];
    r.owner = (unsigned)record_number(bytes + 2, 2);
    r.a = (unsigned)record_number(bytes + 4, 2);
    r.b = (unsigned)record_number(bytes + 6, 2);
    r.c = (unsigned)record_number(bytes + 8, 2);
    r.d = (unsigned)record_number(bytes + 10, 2);
    r.id = (unsigned long)record_number(bytes + 12, 4);
    r.parameter = record_number(bytes + 16, 8);
    return r;
}

/* What a look-up answers where nothing is found. */
#define RECORD_NOWHERE ((size_t)-1)

/* Component `number`: its position. Components are numbered from 0 in file order, wherever they stand. */
static inline size_t record_component(const uint8_t *bytes, size_t length, size_t number)
{
    size_t position, seen = 0;
    for (position = 0; position < length / BERXUNDAR_RECORD; position++)
        if (bytes[BERXUNDAR_RECORD * position] == COMPONENT && seen++ == number)
            return position;
    return RECORD_NOWHERE;
}

/* The component of a drawing at an index, which has so many before it that are no composites: its position. */
static inline size_t record_primitive(const uint8_t *bytes, size_t length, size_t index)
{
    size_t position;
    for (position = 0; record_in(bytes, length, position).form == COMPONENT; position++)
        if (record_in(bytes, length, position).kind != BERXUNDAR_COMPOSITE && index-- == 0)
            return position;
    return RECORD_NOWHERE;
}

/* Child `number` of component `owner`: its position. The root, which is component 0, is nobody's child. */
static inline size_t record_child(const uint8_t *bytes, size_t length, unsigned owner, unsigned number)
{
    size_t position, components = 0, seen = 0;
    for (position = 0; position < length / BERXUNDAR_RECORD; position++)
        if (bytes[BERXUNDAR_RECORD * position] == COMPONENT && components++
            && record_in(bytes, length, position).owner == owner && seen++ == number)
            return position;
    return RECORD_NOWHERE;
}

#endif

/* What a mending drops, in words: see sift.h. */
#include "sift.h"

#include "record.h"
#include "refusal.h"

#define RECORDS (BERXUNDAR_FILE / BERXUNDAR_RECORD)

/* ---- Sifting: see docs/SPECIFICATION.md, "Mending a drawing". A record is what its byte 0 says. ---- */

static int enters(record r) { return r.form == CONNECTION || r.form == INPUT_MAP; }

/* Why a connection or an input map cannot stand, whatever else enters its input. */
static unsigned unfit(const uint8_t *bytes, size_t length, record r)
{
    record owner = record_in(bytes, length, record_component(bytes, length, r.owner));
    record from = record_in(bytes, length, record_child(bytes, length, r.owner, r.a));
    record to = record_in(bytes, length, record_child(bytes, length, r.owner, r.c));
    if (owner.form != COMPONENT || owner.kind != BERXUNDAR_COMPOSITE)
        return SIFT_OWNER;
    if (r.form == CONNECTION ? from.b <= r.b : owner.a <= r.a)
        return SIFT_MISSING;
    return to.a <= r.d ? SIFT_MISSING : SIFT_KEPT;
}

/* The place, among the records left so far, of one that enters the same input. */
static size_t entered(const sifted *of, record r)
{
    size_t place;
    for (place = 0; place < of->length / BERXUNDAR_RECORD; place++) {
        record other = record_in(of->left, of->length, place);
        if (enters(other) && other.owner == r.owner && other.c == r.c && other.d == r.d)
            return place;
    }
    return RECORD_NOWHERE;
}

static void keep(sifted *to, const uint8_t *bytes, size_t position)
{
    size_t i;
    to->was[to->length / BERXUNDAR_RECORD] = (uint16_t)position;
    for (i = 0; i < BERXUNDAR_RECORD; i++)
        to->left[to->length + i] = bytes[BERXUNDAR_RECORD * position + i];
    to->length += BERXUNDAR_RECORD;
}

void sift(sifted *to, const uint8_t *bytes, size_t length)
{
    size_t position, count = length / BERXUNDAR_RECORD;
    to->length = 0;
    for (position = 0; position < count && position < RECORDS; position++) {
        record r = record_in(bytes, length, position);
        unsigned why = enters(r) ? unfit(bytes, length, r) : SIFT_KEPT;
        size_t place = enters(r) && why == SIFT_KEPT ? entered(to, r) : RECORD_NOWHERE;
        to->earlier[position] = 0;
        if (place != RECORD_NOWHERE) {
            why = SIFT_ENTERED;
            to->earlier[position] = to->was[place];
        }
        to->why[position] = (uint8_t)why;
        if (why == SIFT_KEPT)
            keep(to, bytes, position);
    }
    for (; position < BERXUNDAR_DROPPED; position++) {
        to->why[position] = SIFT_KEPT;
        to->earlier[position] = 0;
    }
    if (count <= RECORDS && length % BERXUNDAR_RECORD)
        to->why[count] = SIFT_PART;
}

/* ---- Words. ---- */

static const char *reason(unsigned why)
{
    switch (why) {
    case SIFT_PART: return ": it is only a part of a record, at the end of the file";
    case SIFT_OWNER: return ": its owner is no composite, and has no children that it could join";
    case SIFT_MISSING: return ": it names a child or a port that does not exist";
    case SIFT_ENTERED: return ": it enters an input that a record kept before it has entered";
    default: return "";
    }
}

void sift_explain(FILE *to, const char *name, const uint8_t *bytes, size_t length, const sifted *of, size_t position,
    const char *done)
{
    unsigned why = position < BERXUNDAR_DROPPED ? of->why[position] : SIFT_KEPT;
    fprintf(to, "%s: %s record %lu%s\n", name, done, (unsigned long)position, reason(why));
    if (why == SIFT_PART) {
        unsigned long part = (unsigned long)(length % BERXUNDAR_RECORD);
        fprintf(to, "    of its %d bytes there are %lu, from byte %lu of the file on\n", BERXUNDAR_RECORD, part,
            (unsigned long)length - part);
        return;
    }
    refusal_say_record(to, bytes, length, position);
    if (why == SIFT_OWNER || why == SIFT_MISSING)
        refusal_say_missing(to, bytes, length, position);
    if (why == SIFT_ENTERED) {
        fprintf(to, "    entered before by\n");
        refusal_say_record(to, bytes, length, of->earlier[position]);
    }
}

/* Refusals in words: see refusal.h. Every look-up answers "not there" for what does not exist, and no loop leaves the file. */
#include "refusal.h"

#include "record.h"

#define NOWHERE RECORD_NOWHERE
#define DEEPEST 16

/* The kinds by their numbers, and what docs/SPECIFICATION.md's table of kinds allows each; 14 is kept and has no name. */
#define KINDS 16
static const struct {
    const char *name, *allowed;
} kinds[KINDS] = {
    { "composite", "0 to 64 inputs, 0 to 64 outputs, C 0 and parameter 0" },
    { "And", "0 to 64 inputs, 1 output, C 0 and parameter 0" },
    { "Or", "0 to 64 inputs, 1 output, C 0 and parameter 0" },
    { "Not", "1 input, 1 output, C 0 and parameter 0" },
    { "Nand", "0 to 64 inputs, 1 output, C 0 and parameter 0" },
    { "Nor", "0 to 64 inputs, 1 output, C 0 and parameter 0" },
    { "Xor", "1 to 64 inputs, 1 output, C 0 and parameter 0" },
    { "Switch", "no input, 1 output, C 0 and parameter 0" },
    { "Input", "1 input, 1 output, C 0 and as parameter its bits, 1 to 64" },
    { "Output", "1 input, 1 output, C 0 and as parameter its bits, 1 to 64" },
    { "Splitter", "1 input, as many outputs as bits, C 0 and as parameter its bits, 1 to 64" },
    { "Joiner", "as many inputs as bits, 1 output, C 0 and as parameter its bits, 1 to 64" },
    { "Clock", "no input, 1 output, C 0 and as parameter its period, 1 to 2^62" },
    { "Const", "no input, 1 output, as C its width, 1 to 64, and as parameter its value, less than 2^width" },
    { NULL, NULL },
    { "Majority", "1 to 64 inputs, 1 output, C 0 and parameter 0" },
};

const char *refusal_kind_name(uint64_t kind) { return kind < KINDS ? kinds[kind].name : NULL; }

/* ---- The records. ---- */

/* A file, and where words about it go. `was` has, for each record of a mended one, its position in the damaged one; else it is a
 * null pointer. */
typedef struct {
    FILE *to;
    const uint8_t *bytes;
    size_t length, count;
    const uint16_t *was;
} drawing;

/* The record at a position; one of no form where there is none. */
static record record_at(const drawing *of, size_t position) { return record_in(of->bytes, of->length, position); }

static int is_component(const drawing *of, size_t position) { return record_at(of, position).form == COMPONENT; }

static int is_composite(const drawing *of, size_t position)
{
    return is_component(of, position) && record_at(of, position).kind == BERXUNDAR_COMPOSITE;
}

/* Component `number`, as owners are named: its position. It is the number itself in each file that check 4 passes. */
static size_t component(const drawing *of, size_t number) { return record_component(of->bytes, of->length, number); }

/* Child `number` of an owner: its position. */
static size_t child(const drawing *of, size_t owner, unsigned number)
{
    return record_child(of->bytes, of->length, (unsigned)owner, number);
}

/* How many records of a form before a position have an owner. The root is no child of its own. */
static size_t owned(const drawing *of, unsigned form, size_t owner, size_t before)
{
    size_t position, root = component(of, 0), seen = 0;
    for (position = 0; position < before && position < of->count; position++)
        seen += position != root && record_at(of, position).form == form && record_at(of, position).owner == owner;
    return seen;
}

static size_t with_id(const drawing *of, unsigned long id, size_t before)
{
    size_t at;
    for (at = 0; at < before && at < of->count; at++)
        if (is_component(of, at) && record_at(of, at).id == id)
            return at;
    return NOWHERE;
}

/* ---- Widths, down to the primitives. ---- */

/* A port of a component, by the component's position. */
typedef struct {
    size_t at;
    unsigned port;
} pin;

static unsigned long long input_width(record r)
{
    return r.kind == BERXUNDAR_INPUT || r.kind == BERXUNDAR_OUTPUT || r.kind == BERXUNDAR_SPLITTER ? r.parameter : 1;
}

static unsigned long long output_width(record r)
{
    if (r.kind == BERXUNDAR_CONST)
        return r.c;
    return r.kind == BERXUNDAR_INPUT || r.kind == BERXUNDAR_OUTPUT || r.kind == BERXUNDAR_JOINER ? r.parameter : 1;
}

/* An output followed down through output maps to a primitive's. */
static pin source(const drawing *of, pin from)
{
    unsigned depth;
    for (depth = 0; depth < DEEPEST && is_composite(of, from.at); depth++) {
        size_t position, seen = 0;
        record map = { 0, 0, 0, 0, 0, 0, 0, 0, 0 };
        for (position = 0; position < of->count && !map.form; position++) {
            record r = record_at(of, position);
            if (r.form == OUTPUT_MAP && r.owner == from.at && seen++ == from.port)
                map = r;
        }
        from.at = map.form ? child(of, from.at, map.a) : NOWHERE;
        from.port = map.b;
    }
    if (!is_component(of, from.at) || is_composite(of, from.at))
        from.at = NOWHERE;
    return from;
}

/* The first primitive input of another width that an input leads to through input maps. `left` bounds the records looked at. */
static pin other_width(const drawing *of, pin to, unsigned long long width, unsigned depth, unsigned long *left)
{
    pin none = { NOWHERE, 0 };
    size_t position;
    if (!is_component(of, to.at) || depth == 0)
        return none;
    if (!is_composite(of, to.at))
        return input_width(record_at(of, to.at)) == width ? none : to;
    for (position = 0; position < of->count && *left; position++) {
        record r = record_at(of, position);
        --*left;
        if (r.form == INPUT_MAP && r.owner == to.at && r.a == to.port) {
            pin next = { child(of, to.at, r.c), r.d }, found = other_width(of, next, width, depth - 1, left);
            if (found.at != NOWHERE)
                return found;
        }
    }
    return none;
}

/* ---- Words. ---- */

static const char *plural(unsigned long long count) { return count == 1 ? "" : "s"; }

static void say_kind(const drawing *of, record r)
{
    if (refusal_kind_name(r.kind))
        fprintf(of->to, "%s", refusal_kind_name(r.kind));
    else
        fprintf(of->to, "component of kind %u", r.kind);
}

/* A component by its kind and id. */
static void say_component(const drawing *of, size_t position)
{
    record r = record_at(of, position);
    say_kind(of, r);
    fprintf(of->to, ", id %lu", r.id);
}

/* The owner of a record, which ought to be a composite. */
static void say_owner(const drawing *of, size_t position, unsigned owner)
{
    size_t at = component(of, owner);
    if (position == component(of, 0) && owner == 0)
        return;
    fprintf(of->to, ", in component %u (", owner);
    if (at != NOWHERE)
        say_component(of, at);
    else
        fprintf(of->to, "which is not there");
    fprintf(of->to, ")");
}

/* The ids on the way down from the root to a component, its own the last. */
static void say_path(const drawing *of, size_t position)
{
    unsigned owner = record_at(of, position).owner;
    if (owner && owner < position) {
        say_path(of, owner);
        fprintf(of->to, "/");
    }
    fprintf(of->to, "%lu", record_at(of, position).id);
}

static void say_child(const drawing *of, size_t owner, unsigned number)
{
    size_t position = child(of, owner, number);
    fprintf(of->to, "child %u (", number);
    if (position == NOWHERE)
        fprintf(of->to, "not there");
    else
        say_component(of, position);
    fprintf(of->to, ")");
}

static void say_bytes(const drawing *of, size_t position)
{
    size_t i;
    for (i = 0; i < BERXUNDAR_RECORD; i++)
        fprintf(of->to, " %02x", (unsigned)of->bytes[BERXUNDAR_RECORD * position + i]);
}

/* Inputs, outputs, C and parameter of a component's record. */
static void say_fields(const drawing *of, record r)
{
    fprintf(of->to, "%u input%s, %u output%s, C %u and parameter %llu", r.a, plural(r.a), r.b, plural(r.b), r.c, r.parameter);
}

/* What a record is and everything that it names, by id, up to its owner. */
static void say_what(const drawing *of, size_t position, record r)
{
    if (r.form == COMPONENT) {
        say_component(of, position);
        fprintf(of->to, ", with ");
        say_fields(of, r);
        fprintf(of->to, "%s", position == component(of, 0) ? ", the root" : "");
    } else if (r.form == CONNECTION) {
        fprintf(of->to, "a connection from output %u of ", r.b);
        say_child(of, r.owner, r.a);
        fprintf(of->to, " to input %u of ", r.d);
        say_child(of, r.owner, r.c);
    } else if (r.form == INPUT_MAP) {
        fprintf(of->to, "an input map from input %u of its owner to input %u of ", r.a, r.d);
        say_child(of, r.owner, r.c);
    } else if (r.form == OUTPUT_MAP) {
        fprintf(of->to, "an output map that makes output %lu of its owner from output %u of ",
            (unsigned long)owned(of, OUTPUT_MAP, r.owner, position), r.b);
        say_child(of, r.owner, r.a);
    } else {
        fprintf(of->to, "of record kind %u, with the bytes", r.form);
        say_bytes(of, position);
    }
}

/* A whole record, in a line of its own. */
static void say_record(const drawing *of, size_t position)
{
    record r = record_at(of, position);
    size_t was = position;
    if (of->count <= position) {
        fprintf(of->to, "    record %lu is not in the file, which has %lu\n", (unsigned long)position, (unsigned long)of->count);
        return;
    }
    fprintf(of->to, "    record %lu (", (unsigned long)position);
    if (of->was) {
        was = of->was[position];
        fprintf(of->to, "record %lu of the damaged file, ", (unsigned long)was);
    }
    fprintf(of->to, "bytes %lu to %lu) is ", (unsigned long)(BERXUNDAR_RECORD * was),
        (unsigned long)(BERXUNDAR_RECORD * was + BERXUNDAR_RECORD - 1));
    say_what(of, position, r);
    say_owner(of, position, r.owner);
    fprintf(of->to, "\n");
}

/* ---- What is wrong in particular: a line for each refusal that has one. ---- */

static void explain_size(const drawing *of)
{
    if (of->length == 0)
        fprintf(of->to, "    %s\n", of->was ? "no record is left" : "the file is empty");
    else if (BERXUNDAR_FILE < of->length)
        fprintf(of->to, "    the file has more than %d bytes\n", BERXUNDAR_FILE);
    else
        fprintf(of->to, "    the file has %lu bytes: %lu record%s of %d, and %lu more\n", (unsigned long)of->length,
            (unsigned long)of->count, plural(of->count), BERXUNDAR_RECORD, (unsigned long)(of->length % BERXUNDAR_RECORD));
}

static void explain_field(const drawing *of, const char *field, unsigned long long number)
{
    if (number)
        fprintf(of->to, "    %s is %llu and must be 0 here\n", field, number);
}

static void explain_record(const drawing *of, record r)
{
    if (r.form < COMPONENT || OUTPUT_MAP < r.form) {
        fprintf(of->to, "    record kinds are 1 component, 2 connection, 3 input map and 4 output map\n");
        return;
    }
    if (r.form != COMPONENT) {
        explain_field(of, "byte 1, the component kind,", r.kind);
        explain_field(of, "the id", r.id);
        explain_field(of, "the parameter", r.parameter);
    }
    if (r.form == INPUT_MAP)
        explain_field(of, "B", r.b);
    if (r.form == OUTPUT_MAP)
        explain_field(of, "C", r.c);
    if (r.form == COMPONENT || r.form == OUTPUT_MAP)
        explain_field(of, "D", r.d);
}

static void explain_order(const drawing *of, size_t position)
{
    if (position == 0) {
        fprintf(of->to, "    the first record must be a component, the root\n");
        return;
    }
    fprintf(of->to, "    before it stands this one:\n");
    say_record(of, position - 1);
}

static void explain_no_composite(const drawing *of, unsigned owner)
{
    fprintf(of->to, "    component %u is no composite of this file, and only a composite holds anything\n", owner);
}

static void explain_owner(const drawing *of, size_t position, record r)
{
    if (position == 0)
        fprintf(of->to, "    the root's owner must be 0, and is %u\n", r.owner);
    else if (!is_composite(of, r.owner))
        explain_no_composite(of, r.owner);
    else if (position <= r.owner)
        fprintf(of->to, "    an owner must stand before what it holds\n");
    else
        fprintf(of->to, "    that composite is closed: the component before is neither it nor inside it\n");
}

static void explain_depth(const drawing *of, size_t position)
{
    size_t at = position;
    unsigned depth = 1;
    while (at && depth <= DEEPEST + 1 && record_at(of, at).owner < at) {
        at = record_at(of, at).owner;
        depth++;
    }
    if (BERXUNDAR_COMPONENTS <= position)
        fprintf(of->to, "    it is component %lu, and the last possible is %d\n", (unsigned long)position,
            BERXUNDAR_COMPONENTS - 1);
    else
        fprintf(of->to, "    it stands at depth %u, where the root's is 1 and the deepest possible %d\n", depth, DEEPEST);
}

static void explain_fields(const drawing *of, record r)
{
    if (refusal_kind_name(r.kind))
        fprintf(of->to, "    allowed for this kind: %s\n", kinds[r.kind].allowed);
}

static void explain_id(const drawing *of, size_t position, record r)
{
    size_t other = with_id(of, r.id, position);
    if (other != NOWHERE)
        say_record(of, other);
}

static void explain_ports(const drawing *of, size_t position)
{
    unsigned long inputs = 0, outputs = 0;
    size_t at;
    for (at = 0; at <= position && at < of->count; at++)
        if (is_component(of, at) && !is_composite(of, at)) {
            inputs += record_at(of, at).a;
            outputs += record_at(of, at).b;
        }
    fprintf(of->to, "    up to and with it there are %lu inputs and %lu outputs, composites not counted\n", inputs, outputs);
}

/* Whether the child that a record names and its port exist; says what does not. */
static void explain_child(const drawing *of, size_t owner, unsigned number, unsigned port, int output)
{
    size_t position = child(of, owner, number);
    record r = record_at(of, position);
    const char *side = output ? "output" : "input";
    unsigned ports = output ? r.b : r.a;
    unsigned long children = (unsigned long)owned(of, COMPONENT, owner, of->count);
    if (position == NOWHERE) {
        fprintf(of->to, "    there is no child %u: the owner has %lu child%s, numbered from 0\n", number, children,
            children == 1 ? "" : "ren");
    } else if (ports <= port) {
        fprintf(of->to, "    there is no %s %u of child %u (", side, port, number);
        say_component(of, position);
        fprintf(of->to, "): it has %u, numbered from 0\n", ports);
    }
}

static void explain_ends(const drawing *of, record r)
{
    record owner = record_at(of, component(of, r.owner));
    if (r.form == INPUT_MAP && owner.a <= r.a)
        fprintf(of->to, "    there is no input %u of the owner: it has %u, numbered from 0\n", r.a, owner.a);
    if (r.form == CONNECTION || r.form == OUTPUT_MAP)
        explain_child(of, r.owner, r.a, r.b, 1);
    if (r.form == CONNECTION || r.form == INPUT_MAP)
        explain_child(of, r.owner, r.c, r.d, 0);
}

static void explain_entered(const drawing *of, size_t earlier)
{
    fprintf(of->to, "    entered before by\n");
    say_record(of, earlier);
}

static void explain_maps(const drawing *of, size_t position, record r)
{
    unsigned long maps = (unsigned long)owned(of, OUTPUT_MAP, position, of->count);
    fprintf(of->to, "    it has %u output%s and %lu output map%s\n", r.b, plural(r.b), maps, plural(maps));
}

static void explain_widths(const drawing *of, record r)
{
    pin from = { child(of, r.owner, r.a), r.b }, to = { child(of, r.owner, r.c), r.d };
    unsigned long left = 100000;
    unsigned long long width;
    from = source(of, from);
    if (from.at == NOWHERE)
        return;
    width = output_width(record_at(of, from.at));
    fprintf(of->to, "    it leaves output %u of ", from.port);
    say_component(of, from.at);
    fprintf(of->to, ", of %llu bit%s", width, plural(width));
    to = other_width(of, to, width, DEEPEST + 1, &left);
    if (to.at != NOWHERE) {
        width = input_width(record_at(of, to.at));
        fprintf(of->to, ", and enters input %u of ", to.port);
        say_component(of, to.at);
        fprintf(of->to, ", of %llu bit%s", width, plural(width));
    }
    fprintf(of->to, "\n");
}

/* Follows a path of ids from the root as far as it leads: the component there, and how many ids were followed. */
static size_t follow(const drawing *of, const uint32_t *path, size_t path_length, size_t *followed)
{
    size_t at = 0;
    for (*followed = 0; *followed < path_length; ++*followed) {
        size_t position = 1;
        while (position < of->count && !(is_component(of, position) && record_at(of, position).owner == at
                                         && record_at(of, position).id == path[*followed]))
            position++;
        if (of->count <= position)
            break;
        at = position;
    }
    return at;
}

/* A path that goes on with an id that the component at a position does not hold. */
static void explain_path(const drawing *of, size_t at, uint32_t id)
{
    size_t position;
    fprintf(of->to, "    ");
    say_component(of, at);
    fprintf(of->to, "%s, holds no component of id %lu", at ? "" : ", the root", (unsigned long)id);
    if (owned(of, COMPONENT, at, of->count))
        fprintf(of->to, "; it holds these, by id:");
    for (position = 1; position < of->count; position++)
        if (is_component(of, position) && record_at(of, position).owner == at)
            fprintf(of->to, " %lu", record_at(of, position).id);
    fprintf(of->to, "\n");
}

/* The inputs of a component that lead to nothing. No input has 0 bits, so any that is reached has another width. */
static void explain_behind(const drawing *of, size_t at)
{
    unsigned port;
    fprintf(of->to, "    of ");
    say_component(of, at);
    fprintf(of->to, ", these inputs lead nowhere:");
    for (port = 0; port < record_at(of, at).a; port++) {
        pin input = { at, port };
        unsigned long left = 100000;
        if (other_width(of, input, 0, DEEPEST + 1, &left).at == NOWHERE)
            fprintf(of->to, " %u", port);
    }
    fprintf(of->to, "\n");
}

static void explain_in_particular(const drawing *of, unsigned number, size_t position, size_t earlier)
{
    record r = record_at(of, position);
    switch (number) {
    case BERXUNDAR_BAD_SIZE: explain_size(of); break;
    case BERXUNDAR_BAD_RECORD: explain_record(of, r); break;
    case BERXUNDAR_BAD_ORDER: explain_order(of, position); break;
    case BERXUNDAR_BAD_OWNER: explain_owner(of, position, r); break;
    case BERXUNDAR_TOO_MANY: explain_depth(of, position); break;
    case BERXUNDAR_BAD_FIELDS: explain_fields(of, r); break;
    case BERXUNDAR_SAME_ID: explain_id(of, position, r); break;
    case BERXUNDAR_TOO_MANY_PORTS: explain_ports(of, position); break;
    case BERXUNDAR_NO_CHILD: explain_ends(of, r); break;
    case BERXUNDAR_ENTERED_TWICE:
    case BERXUNDAR_WIRE_AND_MAP:
    case BERXUNDAR_TWO_MAPS: explain_entered(of, earlier); break;
    case BERXUNDAR_OUTPUT_MAPS: explain_maps(of, position, r); break;
    case BERXUNDAR_WIDTHS_DIFFER: explain_widths(of, r); break;
    default: break;
    }
}

/* What to do about a refusal of a file, or of what is lent beside it; a null pointer where there is nothing to say. */
static const char *advice(unsigned number)
{
    switch (number) {
    case BERXUNDAR_BAD_SIZE: return "see whether the file is a drawing and came whole; a drawing is 1 to 1,024 records of 24 bytes";
    case BERXUNDAR_BAD_RECORD: return "set these fields to 0, or the record kind to that of what was meant";
    case BERXUNDAR_BAD_ORDER: return "put components first, then connections, input maps and output maps, each of these by owner";
    case BERXUNDAR_BAD_OWNER: return "name the composite that holds it, and let its components follow it before any of another";
    case BERXUNDAR_TOO_MANY: return "draw with fewer components, or with fewer composites inside one another";
    case BERXUNDAR_KEPT_KIND: return "draw the component from kinds 0 to 13 and 15";
    case BERXUNDAR_UNKNOWN_KIND: return "correct the kind; a drawing of a later kind wants a later engine";
    case BERXUNDAR_BAD_FIELDS: return "correct the component's numbers, or its kind";
    case BERXUNDAR_SAME_ID: return "give one of the two another id";
    case BERXUNDAR_TOO_MANY_PORTS: return "draw with fewer components, or with fewer inputs and outputs";
    case BERXUNDAR_NO_CHILD: return "name a child and a port that are there, or remove the record";
    case BERXUNDAR_ENTERED_TWICE: return "remove one of the two connections, or lead one of them to another input";
    case BERXUNDAR_WIRE_AND_MAP: return "remove the connection or the input map, or lead one of them to another input";
    case BERXUNDAR_TWO_MAPS: return "remove one of the two input maps, or lead one of them to another input";
    case BERXUNDAR_OUTPUT_MAPS: return "give the composite one output map for each of its outputs, in their order";
    case BERXUNDAR_WIDTHS_DIFFER: return "give both ends the same number of bits, or put a Splitter or a Joiner between them";
    case BERXUNDAR_NO_PATH: return "lend what a load of this very file has written, and write to it through calls alone";
    case BERXUNDAR_NOTHING_BEHIND: return "lead the input to a component inside with an input map, or look at one inside instead";
    case BERXUNDAR_NO_ORDER: return "name each wire once, by its place in the table of wires, from 0";
    default: return NULL;
    }
}

static void say_advice(FILE *to, const char *what)
{
    if (what)
        fprintf(to, "    to do: %s\n", what);
}

/* Mending drops some of what is refused; what is mended already has none of that. */
static void say_mending(const drawing *of, unsigned number, size_t position)
{
    unsigned form = record_at(of, position).form;
    int part = number == BERXUNDAR_BAD_SIZE && of->count && of->length < BERXUNDAR_FILE;
    int unfit = (number == BERXUNDAR_BAD_OWNER || number == BERXUNDAR_NO_CHILD) && (form == CONNECTION || form == INPUT_MAP);
    if (part || unfit || refusal_names_earlier(number))
        fprintf(of->to, "    or: ./berxundar mend FILE OUT drops the %s, and writes the rest to OUT\n",
            part ? "part of a record at the end" : "record");
}

static drawing drawing_in(FILE *to, const uint8_t *bytes, size_t length)
{
    drawing of;
    of.to = to;
    of.bytes = bytes;
    of.length = length;
    of.count = length / BERXUNDAR_RECORD;
    of.was = NULL;
    return of;
}

int refusal_names_earlier(unsigned number)
{
    return number == BERXUNDAR_ENTERED_TWICE || number == BERXUNDAR_WIRE_AND_MAP || number == BERXUNDAR_TWO_MAPS;
}

void refusal_say(FILE *to, unsigned number, unsigned position, unsigned earlier)
{
    fprintf(to, "refused %u at %u", number, position);
    if (refusal_names_earlier(number))
        fprintf(to, " against %u", earlier);
}

/* All lines of a refusal. `state` stands behind the file's name. */
static void explain(const drawing *of, const char *name, const char *state, unsigned number, unsigned position, unsigned earlier)
{
    fprintf(of->to, "%s%s: ", name, state);
    refusal_say(of->to, number, position, earlier);
    fprintf(of->to, ": %s\n", number < 65536 ? berxundar_words(number) : "no number");
    if ((BERXUNDAR_BAD_RECORD <= number && number <= BERXUNDAR_WIDTHS_DIFFER) || refusal_names_earlier(number))
        say_record(of, position);
    explain_in_particular(of, number, position, earlier);
    say_advice(of->to, advice(number));
    say_mending(of, number, position);
}

void refusal_explain(FILE *to, const char *name, const uint8_t *bytes, size_t length, unsigned number, unsigned position,
    unsigned earlier)
{
    drawing of = drawing_in(to, bytes, length);
    explain(&of, name, "", number, position, earlier);
}

void refusal_explain_mended(FILE *to, const char *name, const uint8_t *bytes, size_t length, const uint16_t *was, unsigned number,
    unsigned position)
{
    drawing of = drawing_in(to, bytes, length);
    of.was = was;
    explain(&of, name, ", mended", number, position, 0);
}

void refusal_say_record(FILE *to, const uint8_t *bytes, size_t length, size_t position)
{
    drawing of = drawing_in(to, bytes, length);
    say_record(&of, position);
}

void refusal_say_missing(FILE *to, const uint8_t *bytes, size_t length, size_t position)
{
    drawing of = drawing_in(to, bytes, length);
    record r = record_at(&of, position);
    if (is_composite(&of, component(&of, r.owner)))
        explain_ends(&of, r);
    else
        explain_no_composite(&of, r.owner);
}

void refusal_explain_look(FILE *to, const char *name, const uint8_t *bytes, size_t length, unsigned number, const uint32_t *path,
    size_t path_length)
{
    drawing of = drawing_in(to, bytes, length);
    size_t followed, at = follow(&of, path, path_length, &followed);
    fprintf(to, "%s: refused %u: %s\n", name, number, number < 65536 ? berxundar_words(number) : "no number");
    if (number == BERXUNDAR_NO_PATH && followed < path_length)
        explain_path(&of, at, path[followed]);
    if (number == BERXUNDAR_NOTHING_BEHIND)
        explain_behind(&of, at);
    say_advice(to, number == BERXUNDAR_NO_PATH
        ? "name the ids on the way down from the root, its own left out; ./berxundar look FILE has the boxes" : advice(number));
}

void refusal_say_path(FILE *to, const uint8_t *bytes, size_t length, size_t position)
{
    drawing of = drawing_in(to, bytes, length);
    say_path(&of, position);
}

void refusal_say_component(FILE *to, const uint8_t *bytes, size_t length, size_t position)
{
    drawing of = drawing_in(to, bytes, length);
    unsigned owner = record_at(&of, position).owner;
    if (!is_component(&of, position)) {
        fprintf(to, "no component of the drawing");
        return;
    }
    say_component(&of, position);
    if (position && owner) {
        fprintf(to, ", in box ");
        say_path(&of, owner);
    } else {
        fprintf(to, "%s", position ? ", in the root" : ", the root");
    }
}

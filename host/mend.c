/*
 * mend FILE OUT: mends a damaged drawing, and writes what is left of it to OUT: all but a part of a record at the end, and the
 * connections and input maps that cannot stand. A line on standard output says how it went: `FILE: whole, nothing dropped, written
 * to OUT`; `FILE: mended, N records dropped, written to OUT`; or `FILE: refused N at P, OUT not written`, number and position in
 * what would have been left. Which records are dropped and why, and what is still wrong, goes to standard error. What is dropped,
 * written and refused is the engine's to say: `berxundar_mend` does. FILE `-` is standard input. OUT is written whole or not at
 * all, and never where it is the file that is read. Exit status: 0 written; 1 still refused, and nothing is written; 2 FILE cannot
 * be read, OUT not be written, or a word is wrong.
 */
#include "berxundar.h"
#include "file.h"
#include "refusal.h"
#include "sift.h"
#include "writing.h"

#include <stdio.h>

static uint8_t bytes[FILE_ROOM_DAMAGED];
static size_t length;

/* They are large, and stand here and not on the stack. */
static berxundar_mending mending;
static sifted sieve;

/* Whether a file of this length can be mended at all: it has a whole record, and no more than are allowed. */
static int sized(void) { return BERXUNDAR_RECORD <= length && length <= BERXUNDAR_DAMAGED; }

static void say_mended(const char *name, const char *out)
{
    uint64_t i;
    if (mending.count == 0)
        printf("%s: whole, nothing dropped, written to %s\n", name, out);
    else
        printf("%s: mended, %lu record%s dropped, written to %s\n", name, (unsigned long)mending.count,
            mending.count == 1 ? "" : "s", out);
    fflush(stdout);
    for (i = 0; i < mending.count; i++)
        sift_explain(stderr, name, bytes, length, &sieve, mending.dropped[i], "dropped");
}

/* A refusal comes with no list and no bytes: the words go by those worked out here, where they are refused alike. */
static void say_refused(const char *name, const char *out, uint32_t answer)
{
    unsigned number = berxundar_number(answer), position = berxundar_position(answer);
    size_t i;
    printf("%s: refused %u at %u, %s not written\n", name, number, position, out);
    fflush(stdout);
    if (sized() && berxundar_judge(sieve.left, sieve.length) != answer) {
        fprintf(stderr, "%s, mended: refused %u at %u: %s\n", name, number, position, berxundar_words(answer));
        return;
    }
    if (!sized() || sieve.length == length) {
        refusal_explain(stderr, name, bytes, length, number, position, 0);
        return;
    }
    for (i = 0; i < BERXUNDAR_DROPPED; i++)
        if (sieve.why[i] != SIFT_KEPT)
            sift_explain(stderr, name, bytes, length, &sieve, i, "would drop");
    refusal_explain_mended(stderr, name, sieve.left, sieve.length, sieve.was, number, position);
}

int main(int argc, char **argv)
{
    uint32_t answer;
    long read;
    if (argc != 3) {
        fprintf(stderr, "usage: mend FILE OUT\n");
        return 2;
    }
    if (!writing_may(argv[2], argv[1]))
        return 2;
    read = file_read_into(argv[1], bytes, FILE_ROOM_DAMAGED);
    if (read < 0)
        return 2;
    length = (size_t)read;
    answer = berxundar_mend_file(&mending, bytes, length);
    if (answer == 0 && !writing_whole(argv[2], mending.bytes, (size_t)mending.length))
        return 2;
    sift(&sieve, bytes, length);
    if (answer == 0)
        say_mended(argv[1], argv[2]);
    else
        say_refused(argv[1], argv[2], answer);
    if (fflush(stdout) != 0 || ferror(stdout)) {
        perror("mend: standard output");
        return 2;
    }
    return answer == 0 ? 0 : 1;
}

/*
 * explain NAME NUMBER POSITION [EARLIER] <FILE: says on standard error, in words, why the drawing file on standard input, which
 * goes by a name, was refused with this number at this position, EARLIER being the earlier record of two that meet. It judges
 * nothing itself. Exit status: 0 said, 2 standard input cannot be read or a word is none.
 */
#include "file.h"
#include "refusal.h"

#include <stdio.h>

static uint8_t bytes[FILE_ROOM];

/* A number in decimal, of at most five digits; -1 where the word is none. */
static long number_of(const char *word)
{
    long number = 0;
    int digits;
    for (digits = 0; '0' <= word[digits] && word[digits] <= '9' && digits < 5; digits++)
        number = number * 10 + (word[digits] - '0');
    return digits == 0 || word[digits] ? -1 : number;
}

int main(int argc, char **argv)
{
    int words = argc == 4 || argc == 5;
    long number = words ? number_of(argv[2]) : -1, position = words ? number_of(argv[3]) : -1;
    long earlier = argc == 5 ? number_of(argv[4]) : 0, length;
    if (number < 0 || position < 0 || earlier < 0) {
        fprintf(stderr, "usage: explain NAME NUMBER POSITION [EARLIER] <FILE\n");
        return 2;
    }
    length = file_read("-", bytes);
    if (length < 0)
        return 2;
    refusal_explain(stderr, argv[1], bytes, (size_t)length, (unsigned)number, (unsigned)position, (unsigned)earlier);
    return 0;
}

/* Numbers in the words of a command line, for the programs of host/. */
#ifndef BERXUNDAR_HOST_NUMBER_H
#define BERXUNDAR_HOST_NUMBER_H

#include <stddef.h>
#include <stdint.h>

/* A number in decimal at the start of a word: where it ends, or a null pointer where there is none or it has more than 64 bits. */
static inline const char *number_in(const char *word, uint64_t *number)
{
    const char *at = word;
    *number = 0;
    while ('0' <= *at && *at <= '9') {
        uint64_t digit = (uint64_t)(*at++ - '0');
        if (*number > (UINT64_MAX - digit) / 10)
            return NULL;
        *number = *number * 10 + digit;
    }
    return at == word ? NULL : at;
}

#endif

/*
 * judge FILE..: judges drawing files, and prints a line for each: `FILE: accepted`, or `FILE: refused N at P`, number and record;
 * where two records meet, `FILE: refused N at P against E`, with the earlier record. Why a file is refused, and what to do about
 * it, goes to standard error. The file `-` is standard input. Exit status: 0 if all are accepted, 1 if one is refused, 2 if one
 * cannot be read or none is named.
 */
#include "berxundar.h"
#include "file.h"
#include "refusal.h"

#include <stdio.h>

static uint8_t bytes[FILE_ROOM];

/* Judges one file and prints its line: the exit status that it asks for. */
static int judge(const char *path)
{
    long length = file_read(path, bytes);
    uint64_t answer;
    unsigned number, position, earlier;
    if (length < 0)
        return 2;
    answer = berxundar_judge_pair(bytes, (size_t)length);
    if (answer == 0) {
        printf("%s: accepted\n", path);
        return 0;
    }
    number = (unsigned)(answer >> 32);
    position = (unsigned)(answer >> 16 & 65535u);
    earlier = (unsigned)(answer & 65535u);
    printf("%s: ", path);
    refusal_say(stdout, number, position, earlier);
    printf("\n");
    fflush(stdout);
    refusal_explain(stderr, path, bytes, (size_t)length, number, position, earlier);
    return 1;
}

int main(int argc, char **argv)
{
    int status = 0, i;
    if (argc < 2) {
        fprintf(stderr, "usage: judge FILE..\n");
        return 2;
    }
    for (i = 1; i < argc; i++) {
        int asked = judge(argv[i]);
        if (status < asked)
            status = asked;
    }
    if (fflush(stdout) != 0 || ferror(stdout)) {
        perror("judge: standard output");
        return 2;
    }
    return status;
}

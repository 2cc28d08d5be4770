#include "file.h"

#include <stdio.h>

long file_read(const char *path, uint8_t *bytes) { return file_read_into(path, bytes, FILE_ROOM); }

long file_read_into(const char *path, uint8_t *bytes, size_t room)
{
    int standard = path[0] == '-' && path[1] == '\0';
    FILE *file = standard ? stdin : fopen(path, "rb");
    size_t length;
    int broken;
    if (!file) {
        perror(path);
        return -1;
    }
    length = fread(bytes, 1, room, file);
    broken = ferror(file);
    if (broken)
        perror(path);
    if (!standard)
        fclose(file);
    return broken ? -1 : (long)length;
}

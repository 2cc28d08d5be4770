/* Reading a drawing file, for the programs of host/. */
#ifndef BERXUNDAR_HOST_FILE_H
#define BERXUNDAR_HOST_FILE_H

#include "berxundar.h"

/* One byte more than the longest file that can be accepted: of a longer one this much is read, and is refused for its length. */
#define FILE_ROOM (BERXUNDAR_FILE + 1)

/* The same of a file that is to be mended. */
#define FILE_ROOM_DAMAGED (BERXUNDAR_DAMAGED + 1)

/* Reads a file into FILE_ROOM bytes, standard input where the path is "-": how many bytes, or -1, having said on standard error
 * why. */
long file_read(const char *path, uint8_t *bytes);

/* The same into so many bytes. */
long file_read_into(const char *path, uint8_t *bytes, size_t room);

#endif

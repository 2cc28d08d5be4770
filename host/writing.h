/* Writing a file that is seen whole or not at all, and never over the one that was read, for the programs of host/. */
#ifndef BERXUNDAR_HOST_WRITING_H
#define BERXUNDAR_HOST_WRITING_H

#include "berxundar.h"

/* Whether a file may stand at `path`: nothing does yet, or an ordinary file that may be written and is not the one read, which is
 * `from`, standard input where that is "-", by whatever name. Says on standard error why not. */
int writing_may(const char *path, const char *from);

/* Writes the file beside its place, and puts it there once it is whole; what stands there before stays until then, and where it
 * does not come to that. Whether it is written: says on standard error why not. No signal that can be kept off ends it halfway. */
int writing_whole(const char *path, const uint8_t *bytes, size_t length);

#endif

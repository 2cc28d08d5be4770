/* Writing a file whole or not at all: see writing.h. */
#define _POSIX_C_SOURCE 200809L
#include "writing.h"

#include <signal.h>
#include <stdio.h>
#include <sys/stat.h>
#include <unistd.h>

/* Room for more than the longest path that the system takes, and how many names are tried for the file beside. */
#define PATH_ROOM 5000
#define TRIES 100

/* How much of a path names the folder. */
static int folder_in(const char *path)
{
    int folder = 0, i;
    for (i = 0; path[i]; i++)
        if (path[i] == '/')
            folder = i + 1;
    return folder;
}

/* ---- Whether a file may stand there. ---- */

static int no(const char *path, const char *why)
{
    fprintf(stderr, "%s: %s\n", path, why);
    return 0;
}

static int failed(const char *path)
{
    perror(path);
    return 0;
}

/* Whether a path leads to the file that is read, by whatever name. */
static int is_read(const char *path, const char *from)
{
    struct stat there, read;
    if (stat(path, &there) != 0 || (from[0] == '-' && !from[1] ? fstat(0, &read) : stat(from, &read)) != 0)
        return 0;
    return there.st_dev == read.st_dev && there.st_ino == read.st_ino;
}

int writing_may(const char *path, const char *from)
{
    struct stat there;
    char folder[PATH_ROOM];
    FILE *file;
    if (is_read(path, from))
        return no(path, "this is the file that is read, which is never written over; name another");
    if (lstat(path, &there) != 0) {
        snprintf(folder, sizeof folder, "%.*s.", folder_in(path), path);
        return stat(folder, &there) == 0 ? 1 : no(path, "the folder that it is to stand in is not there");
    }
    if (S_ISDIR(there.st_mode))
        return no(path, "this is a folder; name a file in it");
    if (S_ISLNK(there.st_mode))
        return no(path, "this is a symbolic link; name the file that it leads to");
    if (!S_ISREG(there.st_mode))
        return no(path, "this is no ordinary file");
    file = fopen(path, "r+b");
    return file ? fclose(file) == 0 : failed(path);
}

/* ---- Writing. ---- */

/* Opens a new file in the folder of a path: its name is written to PATH_ROOM bytes. The x of its mode asks that nothing stands
 * there yet. */
static FILE *open_beside(const char *path, char *beside)
{
    FILE *file = NULL;
    int i;
    for (i = 0; i < TRIES && !file; i++) {
        snprintf(beside, PATH_ROOM, "%.*s.berxundar-%d", folder_in(path), path, i);
        file = fopen(beside, "wbx");
    }
    return file;
}

/* Writes the bytes, down to the disk, and closes the file. */
static int fill(FILE *file, const uint8_t *bytes, size_t length)
{
    int whole = fwrite(bytes, 1, length, file) == length && fflush(file) == 0 && fsync(fileno(file)) == 0;
    return fclose(file) == 0 && whole;
}

static int put(const char *path, const uint8_t *bytes, size_t length)
{
    struct stat there;
    char beside[PATH_ROOM];
    FILE *file = open_beside(path, beside);
    if (!file)
        return failed(path);
    /* What takes a file's place takes its permissions, where the folder knows of any. */
    if (stat(path, &there) == 0)
        (void)chmod(beside, there.st_mode & 0777);
    if (fill(file, bytes, length) && rename(beside, path) == 0)
        return 1;
    perror(path);
    remove(beside);
    return 0;
}

int writing_whole(const char *path, const uint8_t *bytes, size_t length)
{
    static const int kept_off[] = { SIGHUP, SIGINT, SIGQUIT, SIGTERM, SIGXFSZ };
    enum { COUNT = sizeof kept_off / sizeof kept_off[0] };
    void (*before[COUNT])(int);
    int i, written;
    for (i = 0; i < COUNT; i++)
        before[i] = signal(kept_off[i], SIG_IGN);
    written = put(path, bytes, length);
    for (i = 0; i < COUNT; i++)
        signal(kept_off[i], before[i]);
    return written;
}

/* As much of <sys/stat.h> as host/ and tests/ use, as Linux on x86-64 lays it out: see stdio.h. */
#ifndef BERXUNDAR_ELSEWHERE_SYS_STAT_H
#define BERXUNDAR_ELSEWHERE_SYS_STAT_H

/* 144 bytes, of which the rest is looked at by nobody. */
struct stat {
    unsigned long st_dev, st_ino, st_nlink;
    unsigned int st_mode;
    unsigned int rest[29];
};

#define S_ISDIR(mode) (((mode) & 0170000) == 0040000)
#define S_ISREG(mode) (((mode) & 0170000) == 0100000)
#define S_ISLNK(mode) (((mode) & 0170000) == 0120000)
int stat(const char *path, struct stat *state);
int lstat(const char *path, struct stat *state);
int fstat(int file, struct stat *state);
int chmod(const char *path, unsigned int mode);

#endif

/* The step that puts a file's bytes on the disk, in the place of fsync: signals come in it, and where FAILS is set it fails. */
#include <signal.h>

int raise(int number);
int stopped(int file);

int stopped(int file)
{
    raise(SIGHUP);
    raise(SIGINT);
    raise(SIGQUIT);
    raise(SIGTERM);
    return file < 0 || FAILS ? -1 : 0;
}

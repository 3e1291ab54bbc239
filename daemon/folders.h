// The folders that files lie in.
#ifndef DAEMON_FOLDERS_H
#define DAEMON_FOLDERS_H

// Opens the folder of a path, with flags of open beside O_DIRECTORY. Returns -1, with errno, where it can't be.
int folder_open(const char *path, int flags);

#endif

#include "folders.h"

#include <fcntl.h>
#include <stddef.h>
#include <stdlib.h>
#include <string.h>

int folder_open(const char *path, int flags) {
  const char *slash = strrchr(path, '/');
  char *folder = slash ? strndup(path, (size_t)(slash - path) + 1) : strdup(".");
  int fd = folder ? open(folder, flags | O_DIRECTORY | O_CLOEXEC) : -1;
  free(folder);
  return fd;
}

#include "naa.h"

#include <errno.h>
#include <fcntl.h>
#include <stdio.h>
#include <stdlib.h>
#include <string.h>
#include <sys/random.h>
#include <unistd.h>

#include "folders.h"

// Random bytes in the name of a file that isn't whole yet.
enum { MARK = 4 };

static const char suffix[] = ".naa";

static int digit(char c) {
  if (c >= '0' && c <= '9') return c - '0';
  if (c >= 'a' && c <= 'f') return c - 'a' + 10;
  if (c >= 'A' && c <= 'F') return c - 'A' + 10;
  return -1;
}

bool naa_take(uint8_t naa[NAA_BYTES], const char *text, size_t length) {
  uint8_t taken[NAA_BYTES];
  if (length != NAA_DIGITS || (*text != '3' && *text != '5')) return false;
  for (size_t i = 0; i < NAA_BYTES; i++) {
    int high = digit(text[2 * i]), low = digit(text[2 * i + 1]);
    if (high < 0 || low < 0) return false;
    taken[i] = (uint8_t)(16 * high + low);
  }
  memcpy(naa, taken, NAA_BYTES);
  return true;
}

void naa_print(const uint8_t naa[NAA_BYTES], char text[NAA_DIGITS + 1]) {
  for (size_t i = 0; i < NAA_BYTES; i++) snprintf(text + 2 * i, 3, "%02x", naa[i]);
}

// Returns the path of the file that keeps an image's NAA, with more behind it, or NULL where memory was refused.
static char *path_of(const char *image, const char *behind) {
  size_t size = strlen(image) + strlen(suffix) + strlen(behind) + 1;
  char *path = malloc(size);
  if (path) snprintf(path, size, "%s%s%s", image, suffix, behind);
  return path;
}

// Says why an NAA can't be had, and returns what came of it.
static enum naa refuse(enum naa came, const char *image, const char *text, char *why, size_t room) {
  snprintf(why, room, "%s%s%s", image, suffix, text);
  return came;
}

static enum naa refuse_by_system(enum naa came, const char *image, const char *what, int error, char *why, size_t room) {
  snprintf(why, room, "%s%s%s: %s", image, suffix, what, strerror(error));
  return came;
}

// Reads a file from its start. Returns how many bytes it has, as far as there is room, or -1, with errno.
static ssize_t read_file(const char *path, char *text, size_t size) {
  int file = open(path, O_RDONLY | O_NONBLOCK | O_NOCTTY | O_CLOEXEC);
  if (file < 0) return -1;
  ssize_t count = read(file, text, size);
  int error = errno;
  close(file);
  errno = error;
  return count;
}

enum naa naa_read(const char *image, uint8_t naa[NAA_BYTES], char *why, size_t room) {
  char text[NAA_DIGITS + 2], *path = path_of(image, "");
  ssize_t count = path ? read_file(path, text, sizeof text) : -1;
  int error = path ? errno : ENOMEM;
  free(path);
  // A name that is too long is no file's.
  if (count < 0 && (error == ENOENT || error == ENAMETOOLONG)) return NAA_NONE;
  if (count < 0) return refuse_by_system(NAA_WRONG, image, "", error, why, room);
  size_t length = (size_t)count;
  if (length && text[length - 1] == '\n') length--;
  if (naa_take(naa, text, length)) return NAA_READ;
  return refuse(NAA_WRONG, image, ": not 16 hexadecimal digits, of which the first is 3 or 5", why, room);
}

static bool write_file(int file, const uint8_t naa[NAA_BYTES], uid_t user, gid_t group) {
  char text[NAA_DIGITS + 1];
  naa_print(naa, text);
  text[NAA_DIGITS] = '\n';
  return write(file, text, sizeof text) == (ssize_t)sizeof text && !fchown(file, user, group) && !fsync(file);
}

// Gives a file its name, which no other may have. A file system without hard links can't tell whether one has it.
static bool give_name(const char *beside, const char *path) {
  if (!link(beside, path)) return true;
  bool has_links = errno != EPERM && errno != ENOSYS && errno != EOPNOTSUPP;
  return !has_links && !rename(beside, path);
}

// Waits until a file's entry stands in its folder, or takes it out again.
static bool settle(const char *path) {
  int folder = folder_open(path, O_RDONLY);
  bool settled = folder >= 0 && !fsync(folder);
  int error = errno;
  if (folder >= 0) close(folder);
  if (!settled) unlink(path);
  errno = error;
  return settled;
}

// Keeps an NAA in the file of a path, by a file beside it. Returns false, with errno, where it can't be.
static bool keep(const char *path, const char *beside, const uint8_t naa[NAA_BYTES], uid_t user, gid_t group) {
  int file = open(beside, O_WRONLY | O_CREAT | O_EXCL | O_CLOEXEC, 0644);
  if (file < 0) return false;
  bool kept = write_file(file, naa, user, group) && give_name(beside, path);
  int error = errno;
  close(file);
  unlink(beside);
  errno = error;
  return kept && settle(path);
}

enum naa naa_keep(const char *image, uint8_t naa[NAA_BYTES], uid_t user, gid_t group, char *why, size_t room) {
  uint8_t made[NAA_BYTES + MARK];
  char behind[2 * MARK + 2];
  if (getrandom(made, sizeof made, 0) != sizeof made) return refuse(NAA_NONE, image, " can't be made: no random bytes", why, room);
  made[0] = 0x30 | (made[0] & 0x0f);
  snprintf(behind, sizeof behind, ".%02x%02x%02x%02x", made[NAA_BYTES], made[NAA_BYTES + 1], made[NAA_BYTES + 2], made[NAA_BYTES + 3]);
  char *path = path_of(image, ""), *beside = path_of(image, behind);
  bool kept = path && beside && keep(path, beside, made, user, group);
  int error = path && beside ? errno : ENOMEM;
  free(path);
  free(beside);
  if (!kept && error == EEXIST) return naa_read(image, naa, why, room);
  if (!kept) return refuse_by_system(NAA_NONE, image, " can't be made", error, why, room);
  memcpy(naa, made, NAA_BYTES);
  return NAA_MADE;
}

void naa_undo(const char *image, const uint8_t naa[NAA_BYTES]) {
  uint8_t there[NAA_BYTES];
  char why[1];
  char *path = path_of(image, "");
  bool is_ours = path && naa_read(image, there, why, sizeof why) == NAA_READ && !memcmp(there, naa, NAA_BYTES);
  if (is_ours) unlink(path);
  free(path);
}

// Sends a daemon's control socket one request, and prints its answer.
#include <errno.h>
#include <fcntl.h>
#include <jansson.h>
#include <limits.h>
#include <stdbool.h>
#include <stdint.h>
#include <stdio.h>
#include <stdlib.h>
#include <string.h>
#include <sys/socket.h>
#include <sys/stat.h>
#include <sys/un.h>
#include <unistd.h>

#include "../naa.h"

// REFUSED: the daemon didn't do what it was asked. Of FAILED that isn't known.
enum { MOST_ANSWER = 1 << 20, WHY = 300, FAILED = 1, WRONG_WORDS = 2, REFUSED = 3 };

static const char usage[] =
    "vscsi-ctl PATH REQUEST\n"
    "Asks the daemon whose word was --control PATH.\n"
    "\n"
    "  stats                what it did\n"
    "  resize T:L SIZE      gives a disk SIZE bytes, or K, M, G or T of them\n"
    "  reset T:L            resets a disk, as an operator does\n"
    "  attach T:L=SIZE[,..] adds a disk, by the words of --disk, while there is no front end\n"
    "  detach T:L           takes a disk away, while there is no front end\n";

static int refuse(const char *what) {
  fprintf(stderr, "vscsi-ctl: %s: %s\n", what, strerror(errno));
  return FAILED;
}

// Takes a size in bytes, or below 0 where it is none.
static json_int_t size_of(const char *word) {
  static const char units[] = "KMGT";
  char *end;
  errno = 0;
  long long size = strtoll(word, &end, 10);
  const char *unit = *end ? strchr(units, *end) : NULL;
  unsigned shift = unit ? 10 * (unsigned)(unit - units + 1) : 0;
  bool is_size = *word >= '0' && *word <= '9' && !errno && (!*end || (unit && !end[1])) && size <= INT64_MAX >> shift;
  return is_size ? size << shift : -1;
}

// What the words of a disk say of its file: its path, and the words behind commas that stand once.
struct image {
  char path[PATH_MAX + 1];
  bool has_path, reads, makes;
  bool has_naa;  // the disk gets one by its words, or can't have one
};

// Takes a path up to its end or to a comma that stands once, and returns what follows. One that is too long stays so.
static const char *take_path(const char *at, char *path) {
  size_t length = 0;
  for (; *at && !(*at == ',' && at[1] != ','); at++) {
    if (*at == ',') at++;
    if (length < PATH_MAX) path[length++] = *at;
  }
  path[length] = 0;
  return at;
}

static bool is_word(const char *at, size_t length, const char *word) { return length == strlen(word) && !strncmp(at, word, length); }

static bool begins(const char *at, const char *word) { return !strncmp(at, word, strlen(word)); }

// Takes one word of a disk, as the daemon does, and returns what follows.
static const char *take_word(const char *at, struct image *image) {
  static const char file[] = "file=";
  size_t length = strcspn(at, ",");
  if (begins(at, file)) {
    image->has_path = true;
    return take_path(at + strlen(file), image->path);
  }
  image->has_naa = image->has_naa || begins(at, "naa=") || is_word(at, length, "profile=narrow");
  image->reads = image->reads || is_word(at, length, "snapshot") || is_word(at, length, "read-only=on");
  image->makes = image->makes || is_word(at, length, "grow");
  return at + length;
}

static struct image image_of(const char *words) {
  struct image image = {0};
  const char *at = strchr(words, '=');
  while (at && *at) at = take_word(at + 1, &image);
  return image;
}

// Opens an image, and says whether it was made for that. Returns -1 where it can't be opened.
static int open_image(const struct image *image, bool *is_made) {
  int flags = (image->reads ? O_RDONLY : O_RDWR) | O_NONBLOCK | O_NOCTTY | O_CLOEXEC;
  int fd = image->makes ? open(image->path, flags | O_CREAT | O_EXCL, 0600) : -1;
  *is_made = fd >= 0;
  if (fd < 0 && (!image->makes || errno == EEXIST)) fd = open(image->path, flags);
  if (fd < 0) refuse(image->path);
  return fd;
}

// Takes back an image that was made, where it stands there still and nothing was written into it.
static void undo_image(const char *path, int file) {
  struct stat made, now;
  bool is_same = !fstat(file, &made) && !lstat(path, &now) && made.st_dev == now.st_dev && made.st_ino == now.st_ino;
  if (is_same && !now.st_size && unlink(path)) refuse(path);
}

// Finds the NAA of a disk on this image: it is kept beside a regular file, and made where none is. Where none can be kept, the disk has
// none.
static enum naa find_naa(const struct image *image, int file, uint8_t naa[NAA_BYTES]) {
  struct stat stat;
  char why[WHY];
  if (image->has_naa || fstat(file, &stat) || !S_ISREG(stat.st_mode)) return NAA_NONE;
  enum naa came = naa_read(image->path, naa, why, sizeof why);
  if (came == NAA_NONE) came = naa_keep(image->path, naa, (uid_t)-1, (gid_t)-1, why, sizeof why);
  if (came == NAA_NONE || came == NAA_WRONG) fprintf(stderr, "vscsi-ctl: %s%s\n", came == NAA_NONE ? "the disk has no NAA: " : "", why);
  return came;
}

static int connect_to(const char *path) {
  struct sockaddr_un address = {.sun_family = AF_UNIX};
  int fd = socket(AF_UNIX, SOCK_STREAM | SOCK_CLOEXEC, 0);
  if (strlen(path) >= sizeof address.sun_path) return errno = ENAMETOOLONG, -1;
  strcpy(address.sun_path, path);
  if (fd >= 0 && connect(fd, (struct sockaddr *)&address, sizeof address)) return close(fd), -1;
  return fd;
}

// Sends a line, and a descriptor where it isn't below 0.
static bool send_line(int to, const char *text, size_t length, int file) {
  union {
    struct cmsghdr header;
    char room[CMSG_SPACE(sizeof(int))];
  } rights = {.header = {.cmsg_len = CMSG_LEN(sizeof(int)), .cmsg_level = SOL_SOCKET, .cmsg_type = SCM_RIGHTS}};
  struct iovec part = {.iov_base = (char *)(uintptr_t)text, .iov_len = length};
  struct msghdr header = {.msg_iov = &part, .msg_iovlen = 1};
  memcpy(CMSG_DATA(&rights.header), &file, sizeof file);
  if (file >= 0) {
    header.msg_control = &rights;
    header.msg_controllen = sizeof rights;
  }
  return sendmsg(to, &header, MSG_NOSIGNAL) == (ssize_t)length;
}

// Reads a line. Returns its length, or 0.
static size_t read_line(int from, char *into) {
  size_t have = 0;
  while (have < MOST_ANSWER) {
    ssize_t here = read(from, into + have, MOST_ANSWER - have);
    if (here <= 0 && !(here < 0 && errno == EINTR)) return 0;
    if (here > 0) have += (size_t)here;
    if (have && into[have - 1] == '\n') return have;
  }
  return 0;
}

static int ask(const char *path, json_t *request, int file) {
  static char answer[MOST_ANSWER];
  char *text = json_dumps(request, JSON_COMPACT);
  int to = connect_to(path);
  size_t length = text ? strlen(text) : 0;
  if (to < 0 || !text) return refuse(path), REFUSED;
  text[length++] = '\n';
  length = send_line(to, text, length, file) ? read_line(to, answer) : 0;
  close(to);
  free(text);
  json_t *came = length ? json_loadb(answer, length, 0, NULL) : NULL;
  if (!came) return fprintf(stderr, "vscsi-ctl: %s: no answer\n", path), FAILED;
  json_dumpf(came, stdout, JSON_INDENT(2));
  int status = puts("") < 0 ? FAILED : json_object_get(came, "return") ? 0 : REFUSED;
  json_decref(came);
  return status;
}

// Asks for a disk, with the descriptor of its image and with its NAA.
static int attach(const char *path, json_t *request, const char *words) {
  struct image image = image_of(words);
  uint8_t naa[NAA_BYTES];
  char digits[NAA_DIGITS + 1];
  if (!image.has_path) return ask(path, request, -1);
  bool is_made = false;
  int file = open_image(&image, &is_made);
  enum naa came = file < 0 ? NAA_WRONG : find_naa(&image, file, naa);
  bool is_named = came == NAA_READ || came == NAA_MADE;
  if (is_named) naa_print(naa, digits);
  bool stands = came != NAA_WRONG && (!is_named || !json_object_set_new(json_object_get(request, "arguments"), "naa", json_string(digits)));
  int status = stands ? ask(path, request, file) : FAILED;
  bool is_refused = status == REFUSED || !stands;
  if (came == NAA_MADE && is_refused) naa_undo(image.path, naa);
  if (is_made && is_refused) undo_image(image.path, file);
  if (file >= 0) close(file);
  return status;
}

int main(int count, char **words) {
  json_t *request = NULL;
  if (count == 2 && !strcmp(words[1], "--help")) return fputs(usage, stdout) < 0;
  const char *command = count > 2 ? words[2] : "", *disk = count > 3 ? words[3] : NULL;
  bool has_size = count == 5 && size_of(words[4]) > 0;
  bool is_disk = count == 4 && (!strcmp(command, "reset") || !strcmp(command, "attach") || !strcmp(command, "detach"));
  if (count == 3 && !strcmp(command, "stats")) request = json_pack("{s:s}", "execute", command);
  else if (has_size && !strcmp(command, "resize"))
    request = json_pack("{s:s,s:{s:s,s:I}}", "execute", command, "arguments", "disk", disk, "size", size_of(words[4]));
  else if (is_disk) request = json_pack("{s:s,s:{s:s}}", "execute", command, "arguments", "disk", disk);
  if (!request) return fputs(usage, stderr), WRONG_WORDS;
  int status = !strcmp(command, "attach") ? attach(words[1], request, disk) : ask(words[1], request, -1);
  json_decref(request);
  return status == REFUSED ? FAILED : status;
}

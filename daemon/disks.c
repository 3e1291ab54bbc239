#include "disks.h"

#include <errno.h>
#include <fcntl.h>
#include <stdio.h>
#include <stdlib.h>
#include <string.h>
#include <unistd.h>

#include "caches.h"
#include "cluster.h"
#include "log.h"
#include "names.h"
#include "paging.h"
#include "server.h"
#include "signals.h"

// Takes a number and what ends it. The number is at most `most`.
static bool number(const char **at, uint64_t most, char behind, uint64_t *found) {
  char *end;
  if (**at < '0' || **at > '9') return false;
  errno = 0;
  unsigned long long value = strtoull(*at, &end, 10);
  if (errno || value > most || (behind && *end != behind)) return false;
  *found = value;
  *at = behind ? end + 1 : end;
  return true;
}

bool disks_size(const char **at, uint64_t *blocks) {
  static const char units[] = "KMGT";
  uint64_t bytes, shift = 0;
  if (!number(at, VSCSI_MOST_BLOCKS * DEVICE_BLOCK, 0, &bytes)) return false;
  const char *unit = **at ? strchr(units, **at) : NULL;
  if (unit) {
    shift = 10 * (uint64_t)(unit - units + 1);
    ++*at;
  }
  if (bytes > (VSCSI_MOST_BLOCKS * DEVICE_BLOCK) >> shift) return false;
  bytes <<= shift;
  *blocks = bytes / DEVICE_BLOCK;
  return bytes && bytes % DEVICE_BLOCK == 0;
}

static bool is_there(const struct disks *disks, const struct disk *disk) {
  for (size_t i = 0; i < disks->count; i++)
    if (disks->disks[i].target == disk->target && disks->disks[i].lun == disk->lun) return true;
  return false;
}

// Takes a path up to its end or to a comma that stands once. Returns NULL where it is empty, or memory was refused.
static char *take_path(const char **at) {
  char *path = malloc(strlen(*at) + 1);
  size_t length = 0;
  for (; path && **at && !(**at == ',' && (*at)[1] != ','); ++*at) {
    if (**at == ',') ++*at;
    path[length++] = **at;
  }
  if (path) path[length] = 0;
  if (length) return path;
  free(path);
  return NULL;
}

// Takes the word of an image of a Ceph cluster, as its name behind the scheme.
static bool take_image(const char **at, struct disk *disk, char *why, size_t room) {
  char *image = take_path(at), *name = image ? malloc(sizeof CLUSTER_SCHEME + strlen(image)) : NULL;
  if (name) strcat(strcpy(name, CLUSTER_SCHEME), image);
  free(image);
  bool is_name = name && !disk->uri && cluster_is_name(name);
  if (!is_name) return snprintf(why, room, "rbd= wants POOL/IMAGE or POOL/NAMESPACE/IMAGE, once, and no nbd="), free(name), false;
  disk->uri = name;
  return disk->is_rbd = true;
}

// Takes one word of a disk up to its end or to a comma. Returns false where there is no such word, or it is there already. Says why where
// a name isn't one.
static bool take_word(const char **at, struct disk *disk, char *why, size_t room) {
  static const char *const texts[] = {"file=", "nbd=", "rbd-conf=", "rbd-user="};
  static const char rbd[] = "rbd=", punching[] = "detect-zeroes=unmap", narrow[] = "profile=narrow", wide[] = "profile=wide",
                    protected[] = "read-only=on", writable[] = "read-only=off";
  char **const into[] = {&disk->path, &disk->uri, &disk->rbd_conf, &disk->rbd_user};
  size_t length = strcspn(*at, ",");
  for (size_t i = 0; i < sizeof texts / sizeof *texts; i++) {
    if (strncmp(*at, texts[i], strlen(texts[i]))) continue;
    *at += strlen(texts[i]);
    return !*into[i] && (*into[i] = take_path(at));
  }
  if (!strncmp(*at, rbd, sizeof rbd - 1)) {
    *at += sizeof rbd - 1;
    return take_image(at, disk, why, room);
  }
  enum named named = names_take(disk, *at, length, why, room);
  if (named == NAMED_WELL) *at += length;
  if (named != NAMED_NOT) return named == NAMED_WELL;
  enum cached cached = caches_take(disk, *at, length, why, room);
  if (cached == CACHED_WELL) *at += length;
  if (cached != CACHED_NOT) return cached == CACHED_WELL;
  bool is_grow = length == 4 && !strncmp(*at, "grow", length), is_snapshot = length == 8 && !strncmp(*at, "snapshot", length);
  bool is_punching = length == sizeof punching - 1 && !strncmp(*at, punching, length);
  bool is_narrow = length == sizeof narrow - 1 && !strncmp(*at, narrow, length);
  bool is_wide = length == sizeof wide - 1 && !strncmp(*at, wide, length);
  bool is_protected = length == sizeof protected - 1 && !strncmp(*at, protected, length);
  bool is_writable = length == sizeof writable - 1 && !strncmp(*at, writable, length);
  if (!is_grow && !is_snapshot && !is_punching && !is_narrow && !is_wide && !is_protected && !is_writable) return false;
  if ((is_narrow || is_wide) && disk->has_profile) return false;
  if ((is_protected || is_writable) && disk->has_access) return false;
  disk->has_access = disk->has_access || is_protected || is_writable;
  disk->is_protected = disk->is_protected || is_protected;
  disk->has_profile = disk->has_profile || is_narrow || is_wide;
  disk->wide = disk->wide && !is_narrow;
  disk->punches = disk->punches || is_punching;
  disk->grows = disk->grows || is_grow;
  disk->read_only = disk->read_only || is_snapshot;
  *at += length;
  return true;
}

static const char no_read_only[] = "ro: read-only=on refuses what the guest writes, and snapshot loses it";

// Returns why a disk can't be read-only for its guest, or NULL.
static const char *protection_fault(const struct disk *disk) {
  if (disk->read_only || disk->grows) return "read-only=on takes no snapshot and no grow";
  if (!disk->path && !disk->is_rbd) return "read-only=on wants file=PATH or rbd=IMAGE";
  return disk->wide ? NULL : "read-only=on wants profile=wide";
}

// Takes all words of a disk.
static bool take_disk(struct disk *disk, const char *at, char *why, size_t room) {
  uint64_t target, lun;
  snprintf(why, room,
           "%s: not T:L=SIZE[,file=PATH|,nbd=URI|,rbd=IMAGE][,rbd-conf=PATH][,rbd-user=NAME][,grow][,snapshot][,detect-zeroes=unmap]"
           "[,write-cache=on|off][,cache-size=SIZE][,direct=on][,rerror=stop][,werror=report][,read-only=on][,profile=narrow|wide][,NAMES], "
           "T:L=file=PATH[,..], T:L=nbd=URI[,..] or T:L=rbd=IMAGE[,..]",
           at);
  if (!number(&at, 255, ':', &target) || !number(&at, 16383, '=', &lun)) return false;
  disk->target = (uint8_t)target;
  disk->lun = (uint16_t)lun;
  bool has_size = *at >= '0' && *at <= '9', stands = has_size ? disks_size(&at, &disk->blocks) : take_word(&at, disk, why, room);
  while (stands && *at == ',') {
    at++;
    if (!strcmp(at, "ro") || !strncmp(at, "ro,", 3)) return snprintf(why, room, "%s", no_read_only), false;
    stands = take_word(&at, disk, why, room);
  }
  if (!stands || *at) return false;
  const char *fault = disk->is_protected ? protection_fault(disk) : NULL;
  if (fault) return snprintf(why, room, "%s", fault), false;
  bool wants_path = disk->read_only || disk->grows || (!has_size && !disk->uri);
  if (!disk->path && wants_path) return snprintf(why, room, "grow and snapshot want file=PATH"), false;
  if (disk->grows && (disk->read_only || !has_size)) return snprintf(why, room, "grow wants a size, and no snapshot"), false;
  disk->read_only = disk->read_only || disk->is_protected;
  return true;
}

static void free_words(const struct disk *disk) {
  free(disk->path);
  free(disk->uri);
  free(disk->rbd_conf);
  free(disk->rbd_user);
}

bool disks_add(struct disks *disks, const char *words, char *why, size_t room) {
  struct disk disk = {.file = -1, .wide = true};
  bool stands = take_disk(&disk, words, why, room);
  if (stands && (disks->count == DEVICE_MOST_UNITS || is_there(disks, &disk))) {
    stands = false;
    snprintf(why, room, "%s: there already, or one disk too many", words);
  }
  stands = stands && names_suit(disks, &disk, why, room) && caches_suit(&disk, why, room);
  if (!stands) return free_words(&disk), false;
  size_t index = disks->count;
  for (const struct disk *it = disks->disks; index; index--)
    if (it[index - 1].target < disk.target || (it[index - 1].target == disk.target && it[index - 1].lun < disk.lun)) break;
  memmove(disks->disks + index + 1, disks->disks + index, (disks->count - index) * sizeof disk);
  memmove(disks->stores + index + 1, disks->stores + index, (disks->count - index) * sizeof *disks->stores);
  disks->disks[index] = disk;
  disks->stores[index] = (struct vscsi_disk){0};
  disks->count++;
  return true;
}

bool disks_are_whole(const struct disks *disks) {
  for (size_t i = 0; i < disks->count; i++)
    if (disks->disks[i].lun && (!i || disks->disks[i - 1].target != disks->disks[i].target)) return false;
  return disks->count;
}

bool disks_connect(const struct disks *disks) {
  for (size_t i = 0; i < disks->count; i++)
    if (disks->disks[i].uri && !disks->disks[i].is_rbd) return true;
  return false;
}

bool disks_have_images(const struct disks *disks) {
  for (size_t i = 0; i < disks->count; i++)
    if (disks->disks[i].is_rbd) return true;
  return false;
}

bool disks_find(const struct disks *disks, const char *words, size_t *which) {
  uint64_t target, lun;
  if (!number(&words, 255, ':', &target) || !number(&words, 16383, '=', &lun)) return false;
  for (*which = 0; *which < disks->count; ++*which)
    if (disks->disks[*which].target == target && disks->disks[*which].lun == lun) return true;
  return false;
}

static void close_disk(struct disks *disks, size_t which) {
  if (disks->disks[which].file >= 0) close(disks->disks[which].file);
  free(disks->disks[which].backlog.ranges);
  paging_leave(disks, &disks->disks[which]);
  store_drop(&disks->stores[which]);
  server_close(disks->disks[which].server);
  free_words(&disks->disks[which]);
}

void disks_remove(struct disks *disks, size_t which) {
  close_disk(disks, which);
  size_t behind = --disks->count - which;
  memmove(disks->disks + which, disks->disks + which + 1, behind * sizeof *disks->disks);
  memmove(disks->stores + which, disks->stores + which + 1, behind * sizeof *disks->stores);
  disks->stores[disks->count] = (struct vscsi_disk){0};
}

void disks_close(struct disks *disks) {
  paging_close(disks);
  for (size_t i = 0; i < disks->count; i++) close_disk(disks, i);
  disks->count = 0;
}

bool disk_read(const struct disk *disk, uint64_t first, uint32_t count, uint8_t *into) {
  size_t wanted = (size_t)count * DEVICE_BLOCK;
  if (signals_end_waits()) return false;
  for (size_t done = 0; done < wanted;) {
    ssize_t here = pread(disk->file, into + done, wanted - done, (off_t)(first * DEVICE_BLOCK + done));
    if (here == 0) errno = EIO;
    if (here <= 0 && errno != EINTR) return log_say(LOG_ERROR, disk, "it can't be read: %s", strerror(errno)), false;
    if (here > 0) done += (size_t)here;
  }
  return true;
}

static bool is_zeros(const uint8_t *bytes, size_t count) { return !count || (!bytes[0] && !memcmp(bytes, bytes + 1, count - 1)); }

// Returns whether the file reads as zeros there, with nothing written.
static bool is_hole(const struct disk *disk, off_t at, off_t count) {
  off_t data = lseek(disk->file, at, SEEK_DATA);
  return data < 0 ? errno == ENXIO : data - at >= count;
}

bool disk_write(struct disk *disk, uint64_t first, uint32_t count, const uint8_t *bytes, bool unmapped) {
  size_t wanted = (size_t)count * DEVICE_BLOCK;
  off_t at = (off_t)(first * DEVICE_BLOCK);
  bool zeros = is_zeros(bytes, wanted);
  if (zeros && is_hole(disk, at, (off_t)wanted)) return true;
  disk->dirty = true;
  bool punches = zeros && (unmapped || disk->punches);
  if (punches && !fallocate(disk->file, FALLOC_FL_PUNCH_HOLE | FALLOC_FL_KEEP_SIZE, at, (off_t)wanted)) return true;
  for (size_t done = 0; done < wanted;) {
    ssize_t here = pwrite(disk->file, bytes + done, wanted - done, at + (off_t)done);
    if (here == 0) errno = ENOSPC;
    if (here == 0 || (here < 0 && errno != EINTR)) return false;
    if (here > 0) done += (size_t)here;
  }
  return true;
}

bool disk_next(const struct disk *disk, uint64_t *first, uint64_t *end) {
  off_t size = (off_t)(disk->blocks * DEVICE_BLOCK), from = (off_t)(*first * DEVICE_BLOCK);
  if (from >= size) return false;
  off_t data = lseek(disk->file, from, SEEK_DATA);
  if (data < 0 && errno == ENXIO) return false;
  // A file system that doesn't know holes.
  off_t hole = data < 0 ? size : lseek(disk->file, data, SEEK_HOLE);
  if (data < 0) data = from;
  if (hole < 0 || hole > size) hole = size;
  if (data >= size) return false;
  *first = (uint64_t)data / DEVICE_BLOCK;
  *end = ((uint64_t)hole + DEVICE_BLOCK - 1) / DEVICE_BLOCK;
  return true;
}

bool disk_sync(struct disk *disk) {
  if (disk->dirty && fdatasync(disk->file)) return false;
  disk->dirty = false;
  return true;
}

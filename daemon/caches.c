#include "caches.h"

#include <stdio.h>
#include <string.h>

#include "cluster.h"
#include "export.h"
#include "storage.h"

// Blocks of a page, and of the memory that a backed disk has where no word says how much.
enum { PAGE_BLOCKS = PAGE_BYTES / DEVICE_BLOCK, USUAL_BLOCKS = (64 << 20) / DEVICE_BLOCK };

static const char *const words[] = {"write-cache=", "cache-size=", "direct=", "rerror=", "werror="};
static const char *const values[] = {"on or off", "a size", "on or off", "report or stop", "report or stop"};
enum { WRITE_CACHE, CACHE_SIZE, DIRECT, READ_ERROR, WRITE_ERROR, WORDS };

static bool is_word(const char *text, size_t length, const char *word) { return length == strlen(word) && !strncmp(text, word, length); }

// Takes one of two words, once.
static bool take_one(const char *text, size_t length, const char *yes, const char *no, bool *said, bool *is_on) {
  bool on = is_word(text, length, yes), off = is_word(text, length, no);
  if (*said || (!on && !off)) return false;
  *said = true;
  *is_on = on;
  return true;
}

static bool take_size(const char *text, size_t length, uint64_t *blocks) {
  const char *end = text;
  return !*blocks && disks_size(&end, blocks) && end == text + length;
}

enum cached caches_take(struct disk *disk, const char *word, size_t length, char *why, size_t room) {
  int which = 0;
  while (which < WORDS && strncmp(word, words[which], strlen(words[which]))) which++;
  if (which == WORDS) return CACHED_NOT;
  const char *text = word + strlen(words[which]);
  size_t left = length - strlen(words[which]);
  bool taken = which == WRITE_CACHE   ? take_one(text, left, "on", "off", &disk->has_cache, &disk->is_cached)
               : which == DIRECT      ? take_one(text, left, "on", "off", &disk->has_direct, &disk->is_direct)
               : which == READ_ERROR  ? take_one(text, left, "stop", "report", &disk->has_read_error, &disk->stops_unread)
               : which == WRITE_ERROR ? take_one(text, left, "report", "stop", &disk->has_write_error, &disk->reports_unwritten)
                                      : take_size(text, left, &disk->cache_blocks);
  if (taken) return CACHED_WELL;
  snprintf(why, room, "%s wants %s, once", words[which], values[which]);
  return CACHED_WRONGLY;
}

size_t caches_pages(const struct disk *disk) {
  return (size_t)((disk->cache_blocks ? disk->cache_blocks : USUAL_BLOCKS) / PAGE_BLOCKS);
}

// Of a disk that a server has.
static const char *server_fault_of(const struct disk *disk) {
  bool is_rbd = disk->is_rbd;
  if (disk->path) return is_rbd ? "rbd= stands in place of file=" : "nbd= stands in place of file=";
  if (is_rbd && !cluster_is_built()) return "rbd=: this daemon loads no libraries, since it is linked statically";
  if (!is_rbd && !export_is_built()) return "nbd=: this daemon is built without libnbd";
  return disk->is_direct ? "direct=on wants file=PATH" : NULL;
}

static const char *fault_of(const struct disk *disk) {
  if (!disk->is_rbd && (disk->rbd_conf || disk->rbd_user)) return "rbd-conf= and rbd-user= want rbd=IMAGE";
  if (!disk->is_backed && disk->has_read_error) return "rerror= wants write-cache=on or cache-size=";
  if (!disk->is_backed && disk->has_write_error) return "werror= wants write-cache=on or cache-size=";
  if (!disk->is_backed) return disk->is_direct ? "direct=on wants write-cache=on or cache-size=" : NULL;
  if (disk->is_cached && !disk->wide) return "write-cache=on wants profile=wide";
  return caches_pages(disk) < VSCSI_LEAST_PAGES ? "cache-size= is 33M at least" : NULL;
}

const char *caches_word(const struct disk *disk) {
  if (disk->is_cached) return "write-cache=on";
  return !disk->uri ? "cache-size=" : disk->is_rbd ? "rbd=" : "nbd=";
}

// Returns what such a disk can't be, behind that word.
static const char *lack_of(const struct disk *disk) {
  if (!storage_is_built()) return ": this daemon is built without liburing";
  if (!disk->path && !disk->uri) return " wants file=PATH, nbd=URI or rbd=IMAGE";
  return disk->read_only && !disk->is_protected ? " takes no snapshot" : NULL;
}

bool caches_suit(struct disk *disk, char *why, size_t room) {
  // A server's disk has a write cache without a word.
  if (disk->uri && !disk->has_cache) disk->is_cached = true;
  disk->is_backed = disk->is_cached || disk->uri || disk->cache_blocks;
  const char *fault = disk->uri ? server_fault_of(disk) : NULL, *lack = disk->is_backed && !fault ? lack_of(disk) : NULL;
  if (lack) return snprintf(why, room, "%s%s", caches_word(disk), lack), false;
  fault = fault ? fault : fault_of(disk);
  if (fault) snprintf(why, room, "%s", fault);
  return !fault;
}

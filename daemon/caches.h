// What the words of a disk say of its write cache, and of whether its blocks are in memory or on its file.
#ifndef DAEMON_CACHES_H
#define DAEMON_CACHES_H

#include "disks.h"

enum cached { CACHED_NOT, CACHED_WELL, CACHED_WRONGLY };

// Takes one word of a disk, of so many characters: write-cache=, cache-size=, direct=, rerror= or werror=. Returns CACHED_NOT where it is
// none of these, and CACHED_WRONGLY, and says why, where its value isn't one, or it was there already.
enum cached caches_take(struct disk *disk, const char *word, size_t length, char *why, size_t room);

// Returns whether these words go with the others of the disk, and with how the daemon is built. Says why where they don't. A disk on an NBD
// server has a write cache behind this.
bool caches_suit(struct disk *disk, char *why, size_t room);

// Returns the word by which a disk is backed.
const char *caches_word(const struct disk *disk);

// Returns how many pages of a backed disk are in memory at most.
size_t caches_pages(const struct disk *disk);

#endif

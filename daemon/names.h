// What a disk of the wide profile says of itself: by words of the command line, and by an NAA that is kept beside its image.
#ifndef DAEMON_NAMES_H
#define DAEMON_NAMES_H

#include <sys/types.h>

#include "disks.h"

enum named { NAMED_NOT, NAMED_WELL, NAMED_WRONGLY };

// Takes one word of a disk, of so many characters: serial=, naa=, vendor=, product=, revision=, physical-block-exp=, rotation-rate=
// or sense=.
// Returns NAMED_NOT where it is none of these, and NAMED_WRONGLY, and says why, where its value isn't one, or it was there already.
enum named names_take(struct disk *disk, const char *word, size_t length, char *why, size_t room);

// Returns whether a disk has names that no other may have too, and that its profile tells. Says why where it doesn't.
bool names_suit(const struct disks *disks, const struct disk *disk, char *why, size_t room);

// Reads the NAA of each wide disk on a regular file that is given none: it stands in IMAGE.naa. Of several disks on one file the first has
// it. Returns false, and says why, where such a file can't be read, or has no NAA, or that of a disk on another file. Makes nothing.
bool names_read(struct disks *disks, char *why, size_t room);

// Gives each of these disks whose file isn't there an NAA 3h of 60 random bits, and keeps it there, for this owner. Where it can't be kept
// the disk has none, and the log says so.
void names_keep(struct disks *disks, uid_t user, gid_t group);

// Takes away the files that names_keep made. Called where the daemon doesn't come to serve.
void names_undo(struct disks *disks);

// Gives a disk the NAA whose digits somebody else read or kept in IMAGE.naa, if no other disk on this file has it. Returns false, and says
// why, where that isn't an NAA, or is that of a disk on another file, or the disk has one by its words, or can't have one.
bool names_give(const struct disks *disks, struct disk *disk, const char *text, char *why, size_t room);

#endif

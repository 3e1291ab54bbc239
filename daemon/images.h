// The images of disks: files and block devices, opened and locked, made and grown.
#ifndef DAEMON_IMAGES_H
#define DAEMON_IMAGES_H

#include <sys/types.h>

#include "disks.h"

// Opens and locks each image that is there, connects to each server, and tests their lengths. Makes and changes nothing. An image that
// isn't there is left to images_make. Returns false, and says why, where one can't be had: it is missing, denied, in use, or has another
// length.
//
// Each image is locked by flock, and on the bytes by which QEMU and its tools lock theirs, so each refuses what the other writes.
bool images_open(struct disks *disks, char *why, size_t room);

// Locks the images of disks that move, and measures them, if that isn't so already. Returns false, and says why, where one can't
// be had; then none is locked.
bool images_hold(struct disks *disks, char *why, size_t room);

// Tests the length of an image that was opened by somebody else, and grows it where it is to grow. Locks it where the others are locked.
// Has it read and written with no cache of the system's, where its words say so, also by whoever has this descriptor.
bool image_take(const struct disks *disks, struct disk *disk, char *why, size_t room);

// Makes an image as long as a disk of so many blocks. What a block device has behind the disk becomes zeros.
bool image_resize(struct disk *disk, uint64_t blocks, char *why, size_t room);

// Lets go of these images, and of the blocks in memory, where the files have all that they promise. Another daemon may have them
// then.
void images_release(struct disks *disks);

// Makes the images that weren't there, with mode 0600 and for this owner, and grows those that are to be. All of it stands on the file
// system afterwards. Returns false, and says why, where one couldn't be; images_undo then takes back what was done.
bool images_make(struct disks *disks, uid_t user, gid_t group, char *why, size_t room);

// Takes away the images that images_make made, and what it grew others by, unless another daemon has them by now. Called where the daemon
// doesn't come to serve.
void images_undo(struct disks *disks);

#endif

#include "images.h"

#include <errno.h>
#include <fcntl.h>
#include <linux/fs.h>
#include <poll.h>
#include <stdio.h>
#include <string.h>
#include <sys/file.h>
#include <sys/ioctl.h>
#include <sys/stat.h>
#include <unistd.h>

#include "blocks.h"
#include "cluster.h"
#include "export.h"
#include "folders.h"
#include "storage.h"

// Where QEMU's locks are (block/file-posix.c): who uses a permission has a byte of the first run locked for reading, and who doesn't
// share it one of the second. WRITE_UNCHANGED (2) is shared by all.
enum { USED = 100, UNSHARED = 200, CONSISTENT_READ = 0, WRITE = 1, RESIZE = 3, PERMISSIONS = 4 };

// Says why an image can't be had, as errno has it where there is no other text.
static bool refuse(const struct disk *disk, const char *text, char *why, size_t room) {
  snprintf(why, room, "%s: %s", disk->path, text ? text : strerror(errno));
  return false;
}

static bool lock_byte(int file, off_t at) {
  struct flock lock = {.l_type = F_RDLCK, .l_whence = SEEK_SET, .l_start = at, .l_len = 1};
  return !fcntl(file, F_OFD_SETLK, &lock);
}

// Returns whether another has this byte locked. Where that can't be told it is as if it had.
static bool is_locked(int file, off_t at) {
  struct flock lock = {.l_type = F_WRLCK, .l_whence = SEEK_SET, .l_start = at, .l_len = 1};
  return fcntl(file, F_OFD_GETLK, &lock) || lock.l_type != F_UNLCK;
}

// Locks an image. Its blocks are read, and written where it isn't read only; others may read them, and mustn't write or resize it.
static bool lock(const struct disk *disk, char *why, size_t room) {
  unsigned uses = 1u << CONSISTENT_READ | (disk->read_only ? 0 : 1u << WRITE | 1u << RESIZE), unshared = 1u << WRITE | 1u << RESIZE;
  if (flock(disk->file, (disk->read_only ? LOCK_SH : LOCK_EX) | LOCK_NB)) return refuse(disk, errno == EAGAIN ? "in use" : NULL, why, room);
  for (unsigned i = 0; i < PERMISSIONS; i++) {
    if (uses >> i & 1 && !lock_byte(disk->file, USED + i)) return refuse(disk, NULL, why, room);
    if (unshared >> i & 1 && !lock_byte(disk->file, UNSHARED + i)) return refuse(disk, NULL, why, room);
  }
  // Both sides lock before they look, so of two at least one sees the other.
  for (unsigned i = 0; i < PERMISSIONS; i++) {
    bool is_denied = uses >> i & 1 && is_locked(disk->file, UNSHARED + i), is_used = unshared >> i & 1 && is_locked(disk->file, USED + i);
    if (is_denied || is_used) return refuse(disk, "in use, locked as QEMU's tools do", why, room);
  }
  return true;
}

// Locks an image as its disk comes. What the system reads and writes for a daemon that was killed keeps a file locked a moment longer, so
// that of a backed disk is tried for a second.
static bool lock_first(const struct disk *disk, char *why, size_t room) {
  enum { TRIES = 20, PAUSE = 50 };
  bool locked = lock(disk, why, room);
  for (unsigned tries = 0; !locked && disk->is_backed && tries < TRIES; tries++) {
    poll(NULL, 0, PAUSE);
    locked = lock(disk, why, room);
  }
  return locked;
}

static void unlock(const struct disk *disk) {
  struct flock lock = {.l_type = F_UNLCK, .l_whence = SEEK_SET, .l_start = USED, .l_len = UNSHARED + PERMISSIONS - USED};
  fcntl(disk->file, F_OFD_SETLK, &lock);
  flock(disk->file, LOCK_UN);
}

// Finds how long a file or a block device is.
static bool measure(struct disk *disk, char *why, size_t room) {
  struct stat stat;
  if (fstat(disk->file, &stat)) return refuse(disk, NULL, why, room);
  if (S_ISBLK(stat.st_mode)) return !ioctl(disk->file, BLKGETSIZE64, &disk->length) || refuse(disk, NULL, why, room);
  if (!S_ISREG(stat.st_mode)) return refuse(disk, "no file and no block device", why, room);
  disk->length = (uint64_t)stat.st_size;
  return true;
}

// Has an image read and written as its words say: with no cache of the system's, perhaps. Whole pages alone can be, then. O_NONBLOCK was
// for opening: with it io_uring gives up at once where what lies below can't be asked without waiting, as dm-crypt.
static bool set_flags(const struct disk *disk, char *why, size_t room) {
  if (disk->file < 0) return true;
  if (disk->is_direct && disk->blocks * DEVICE_BLOCK % PAGE_BYTES)
    return refuse(disk, "direct=on: the disk has no multiple of 4096 bytes", why, room);
  int flags = (fcntl(disk->file, F_GETFL) & ~O_NONBLOCK) | (disk->is_direct ? O_DIRECT : 0);
  if (!fcntl(disk->file, F_SETFL, flags)) return true;
  return refuse(disk, disk->is_direct && errno == EINVAL ? "direct=on: its file system has no O_DIRECT" : NULL, why, room);
}

// Waits until an image that was locked has what was written to it before. What a daemon that was killed wrote may stand in the system's
// memory alone, and is what is read from here on.
static bool sync_image(const struct disk *disk, char *why, size_t room) {
  return disk->read_only || !fdatasync(disk->file) || refuse(disk, NULL, why, room);
}

static bool is_device(const struct disk *disk) {
  struct stat stat;
  return !fstat(disk->file, &stat) && S_ISBLK(stat.st_mode);
}

// Tests that an image is as long as its disk, or can be made so. A disk without a size gets the image's.
static bool fits(struct disk *disk, char *why, size_t room) {
  uint64_t wanted = disk->blocks * DEVICE_BLOCK;
  struct stat stat;
  if (!disk->blocks) {
    disk->blocks = disk->length / DEVICE_BLOCK;
    bool is_whole = disk->blocks && disk->length % DEVICE_BLOCK == 0 && disk->blocks <= VSCSI_MOST_BLOCKS;
    return is_whole || refuse(disk, "its length is no disk's: 1 to 2^40 blocks of 512 bytes", why, room);
  }
  if (disk->length > wanted) return refuse(disk, "longer than the disk", why, room);
  if (disk->length == wanted) return true;
  // An empty one is as one that isn't there: a daemon that was killed as it made it leaves that.
  bool grows = disk->grows || (!disk->length && !disk->read_only);
  const char *shorter = disk->read_only ? "shorter than the disk" : "shorter than the disk; the word grow makes it longer";
  if (!grows) return refuse(disk, shorter, why, room);
  return (!fstat(disk->file, &stat) && S_ISREG(stat.st_mode)) || refuse(disk, "shorter than the disk, and no file that grows", why, room);
}

// Says why an image can't be had for writing, as errno has it.
static bool refuse_writing(const struct disk *disk, char *why, size_t room) {
  snprintf(why, room, "%s: %s. With read-only=on it is opened for reading alone", disk->path, strerror(errno));
  return false;
}

static bool open_image(struct disk *disk, bool is_locked_now, char *why, size_t room) {
  // O_NONBLOCK: a FIFO is refused, and isn't waited for.
  disk->file = open(disk->path, (disk->read_only ? O_RDONLY : O_RDWR) | O_NONBLOCK | O_NOCTTY | O_CLOEXEC);
  if (disk->file < 0 && errno == ENOENT && disk->blocks && !disk->read_only) return true;
  bool is_barred = disk->file < 0 && (errno == EACCES || errno == EPERM || errno == EROFS);
  if (is_barred && !disk->read_only) return refuse_writing(disk, why, room);
  if (disk->file < 0) return refuse(disk, NULL, why, room);
  bool is_had = measure(disk, why, room) && (!is_locked_now || (lock_first(disk, why, room) && sync_image(disk, why, room)));
  return is_had && fits(disk, why, room) && set_flags(disk, why, room);
}

// Connects to the server of a disk, and tests that its export or its image is as long as the disk.
static bool connect_disk(struct disk *disk, char *why, size_t room) {
  const struct image_name image = {disk->uri, disk->rbd_conf, disk->rbd_user, disk->read_only};
  disk->server = disk->is_rbd ? cluster_open(&image, why, room) : export_open(disk->uri, why, room);
  if (!disk->server) return false;
  disk->length = server_bytes(disk->server);
  if (!disk->blocks) disk->blocks = disk->length / DEVICE_BLOCK;
  if (disk->length == disk->blocks * DEVICE_BLOCK) return true;
  snprintf(why, room, "%s: %s than the disk", disk->uri, disk->length < disk->blocks * DEVICE_BLOCK ? "shorter" : "longer");
  return false;
}

bool images_open(struct disks *disks, char *why, size_t room) {
  for (size_t i = 0; i < disks->count; i++) {
    struct disk *disk = &disks->disks[i];
    if (disk->path && !open_image(disk, !disks->moves, why, room)) return false;
    if (disk->uri && !connect_disk(disk, why, room)) return false;
  }
  return true;
}

// Locks an image that another daemon may have had, and tests that it left it as long as it was. Another host may have written what this
// system has in its memory.
static bool hold(struct disk *disk, char *why, size_t room) {
  uint64_t wanted = disk->blocks * DEVICE_BLOCK, before = disk->length;
  if (!lock(disk, why, room) || !measure(disk, why, room) || !sync_image(disk, why, room)) return false;
  errno = posix_fadvise(disk->file, 0, 0, POSIX_FADV_DONTNEED);
  if (errno) return refuse(disk, NULL, why, room);
  // A block device stays as long as it is where its disk gets shorter.
  bool is_whole = disk->length == wanted || (disk->length > wanted && disk->length == before && is_device(disk));
  return is_whole || refuse(disk, "not as long as it was", why, room);
}

bool images_hold(struct disks *disks, char *why, size_t room) {
  bool held = true;
  if (!disks->moves || disks->held) return true;
  for (size_t i = 0; held && i < disks->count; i++) held = hold(&disks->disks[i], why, room);
  for (size_t i = 0; !held && i < disks->count; i++) unlock(&disks->disks[i]);
  return disks->held = held;
}

// Returns whether images aren't locked, so that another daemon may have them.
static bool is_loose(const struct disks *disks) { return disks->moves && !disks->held; }

// Makes an image that is there as long as its disk. One that isn't locked is so meanwhile, and measured once more.
static bool grow(const struct disks *disks, struct disk *disk, char *why, size_t room) {
  bool locks = is_loose(disks), stands = !locks || (lock(disk, why, room) && measure(disk, why, room) && fits(disk, why, room));
  disk->grown = stands && disk->length != disk->blocks * DEVICE_BLOCK;
  if (disk->grown) stands = image_resize(disk, disk->blocks, why, room);
  if (locks) unlock(disk);
  return stands;
}

// Returns whether another disk has the file of this one, and one of them writes it. Locks don't tell where one descriptor came twice.
static bool is_taken(const struct disks *disks, const struct disk *disk) {
  struct stat its, other;
  if (fstat(disk->file, &its)) return false;
  for (size_t i = 0; i < disks->count; i++) {
    const struct disk *it = &disks->disks[i];
    if (it == disk || it->file < 0 || (it->read_only && disk->read_only) || fstat(it->file, &other)) continue;
    if (its.st_dev == other.st_dev && its.st_ino == other.st_ino) return true;
  }
  return false;
}

bool image_take(const struct disks *disks, struct disk *disk, char *why, size_t room) {
  int flags = fcntl(disk->file, F_GETFL), wanted = disk->read_only ? O_RDONLY : O_RDWR;
  bool suits = (flags & O_ACCMODE) == wanted || (flags & O_ACCMODE) == O_RDWR;
  if (!suits) return refuse(disk, "its descriptor isn't for writing. With read-only=on it is for reading alone", why, room);
  // What is written goes to the end of the file by the one, and has to be aligned by the other.
  if (flags & O_APPEND) return refuse(disk, "its descriptor has O_APPEND", why, room);
  if (flags & O_DIRECT && !disk->is_direct) return refuse(disk, "its descriptor has O_DIRECT, and its disk no direct=on", why, room);
  if (is_taken(disks, disk)) return refuse(disk, "in use, by another disk of this daemon", why, room);
  if (!measure(disk, why, room) || (!is_loose(disks) && !(lock_first(disk, why, room) && sync_image(disk, why, room)))) return false;
  if (!fits(disk, why, room) || !set_flags(disk, why, room)) return false;
  return disk->length == disk->blocks * DEVICE_BLOCK || grow(disks, disk, why, room);
}

bool image_resize(struct disk *disk, uint64_t blocks, char *why, size_t room) {
  struct stat stat;
  uint64_t bytes = blocks * DEVICE_BLOCK;
  if (disk->server) return snprintf(why, room, "%s: a disk with nbd= or rbd= stays as long as it is", disk->uri), false;
  if (disk->file < 0 || disk->read_only) return true;
  if (disk->is_direct && bytes % PAGE_BYTES) return refuse(disk, "direct=on: no multiple of 4096 bytes", why, room);
  if (fstat(disk->file, &stat) || !measure(disk, why, room)) return refuse(disk, NULL, why, room);
  if (S_ISREG(stat.st_mode)) {
    // A file that is longer than its disk has what an earlier resize couldn't cut off.
    uint64_t now = disk->blocks * DEVICE_BLOCK;
    bool is_cut = bytes <= now || disk->length <= now || !ftruncate(disk->file, (off_t)now);
    return (is_cut && !ftruncate(disk->file, (off_t)bytes) && !fdatasync(disk->file)) || refuse(disk, NULL, why, room);
  }
  if (bytes > disk->length) return refuse(disk, "the block device is shorter", why, room);
  off_t from = (off_t)(disk->blocks * DEVICE_BLOCK);
  bool zeroed = blocks <= disk->blocks || (!fallocate(disk->file, FALLOC_FL_ZERO_RANGE | FALLOC_FL_KEEP_SIZE, from, (off_t)bytes - from) &&
                                           !fdatasync(disk->file));
  return zeroed || refuse(disk, NULL, why, room);
}

void images_release(struct disks *disks) {
  if (!disks->moves || !disks->held || blocks_are_left(disks)) return;
  for (size_t i = 0; i < disks->count; i++) {
    store_drop(&disks->stores[i]);
    unlock(&disks->disks[i]);
  }
  disks->held = false;
}

// Waits until the entry of a new file stands in its folder.
static bool sync_folder(const char *path) {
  int folder = folder_open(path, O_RDONLY);
  bool synced = folder >= 0 && !fsync(folder);
  if (folder >= 0) close(folder);
  return synced;
}

// Makes an image that wasn't there. Nobody but its owner may read what a guest keeps there.
static bool make(struct disk *disk, bool is_locked_now, uid_t user, gid_t group, char *why, size_t room) {
  disk->file = open(disk->path, O_RDWR | O_CREAT | O_EXCL | O_CLOEXEC, 0600);
  if (disk->file < 0) return refuse(disk, NULL, why, room);
  disk->made = true;
  if (fchown(disk->file, user, group)) return refuse(disk, NULL, why, room);
  if (!set_flags(disk, why, room)) return false;
  if (is_locked_now && !lock(disk, why, room)) return false;
  bool stands = !ftruncate(disk->file, (off_t)(disk->blocks * DEVICE_BLOCK)) && !fsync(disk->file) && sync_folder(disk->path);
  return stands || refuse(disk, NULL, why, room);
}

bool images_make(struct disks *disks, uid_t user, gid_t group, char *why, size_t room) {
  for (size_t i = 0; i < disks->count; i++) {
    struct disk *disk = &disks->disks[i];
    bool is_there = disk->file >= 0;
    if (!disk->path || (is_there && disk->length == disk->blocks * DEVICE_BLOCK)) continue;
    if (is_there ? !grow(disks, disk, why, room) : !make(disk, !disks->moves, user, group, why, room)) return false;
  }
  return true;
}

// Takes away an image that was made, if it is still that one.
static void take_away(const struct disk *disk) {
  struct stat ours, there;
  if (fstat(disk->file, &ours) || lstat(disk->path, &there)) return;
  if (ours.st_dev == there.st_dev && ours.st_ino == there.st_ino) unlink(disk->path);
}

void images_undo(struct disks *disks) {
  for (size_t i = 0; i < disks->count; i++) {
    struct disk *disk = &disks->disks[i];
    if (!disk->made && !disk->grown) continue;
    // One that isn't locked may be another daemon's by now.
    if (is_loose(disks) && !lock(disk, NULL, 0)) continue;
    if (disk->made) take_away(disk);
    else if (is_loose(disks) && !disk->length) continue;  // another may have taken it for its own
    else if (ftruncate(disk->file, (off_t)disk->length)) continue;  // it stays longer: zeros that nobody wrote
    disk->made = disk->grown = false;
  }
}

// The daemon's disks: what the command line says of each, the file that keeps its blocks, and the blocks themselves, as values of
// the library, while no device has them.
#ifndef DAEMON_DISKS_H
#define DAEMON_DISKS_H

#include "library.h"

enum { MOST_UNMAPPED = 64, FEW_RANGES = 64 };

// A place among the ranges of a backlog: so many blocks of this range are done, and all of those before it.
struct mark {
  size_t range;
  uint64_t done;
};

// Blocks that a disk's file may lack (blocks.h), as ranges that may overlap. Those before `written` were written since, and those before
// `synced` stand there for sure. `ranges` is NULL while they stand in `few`.
struct backlog {
  struct vscsi_range few[FEW_RANGES], *ranges;
  size_t count, room;
  struct mark written, synced;
  struct vscsi_range unmapped[MOST_UNMAPPED];  // which of these blocks the guest unmapped, as far as there is room
  size_t unmapped_count;
};

struct disk {
  uint8_t target;
  uint16_t lun;
  uint64_t blocks;  // 0 until its image is open, where the command line says no size
  char *path;       // of its image, or NULL
  char *uri;        // of the NBD server that has it, or of a Ceph cluster's image, or NULL: with neither the disk is in memory alone
  bool is_rbd;      // it is an image's: CLUSTER_SCHEME and its name
  char *rbd_conf, *rbd_user;  // the file of that cluster's configuration, and the user there, or NULL
  struct server *server;  // the connection to that, or NULL
  int file;         // below 0: there is no image, or it isn't open
  bool read_only;   // never written to that image
  bool has_access;  // its words say whether its guest may write it
  bool is_protected;  // it may not: the device refuses what would change the disk
  bool grows;       // a shorter image is made as long as the disk
  bool made;        // there was no image
  bool grown;       // there was a shorter one
  bool punches;     // a WRITE of zeros may make a hole of the image
  bool has_profile; // its words say its profile
  bool wide;        // it knows the commands of the wide profile, as it does without such a word
  unsigned named;   // which words of names.h the command line has
  struct vscsi_identity names;
  bool has_new_naa; // the file that keeps its NAA wasn't there
  uint64_t length;  // of the image when it was opened, in bytes
  bool has_cache;   // its words say whether it has a write cache
  bool is_cached;   // it has, and tells its guest so
  bool is_backed;   // its blocks are on its file or its server, and a part of them in memory (paging.h). Without a write cache what changes them
                    // is answered once they are there
  uint64_t cache_blocks;  // how many of them are in memory at most, or 0 where no word says that
  bool has_direct;  // its words say whether its file is read and written with no cache of the system's
  bool is_direct;   // it is
  bool has_read_error;  // its words say what becomes of a command that needs what can't be read
  bool stops_unread;    // it waits until that can be read; else it ends with MEDIUM ERROR
  bool has_write_error;    // its words say what becomes of a flush of what can't be written
  bool reports_unwritten;  // it ends with MEDIUM ERROR; else it waits until that can be written
  struct paging *paging;  // of a backed disk, or NULL
  bool dirty;       // written since disk_sync
  int error;        // the error number by which the image can't be written now, or 0
  unsigned pause;   // milliseconds between two tries then, and the time of the next one
  uint64_t due;
  uint64_t told;    // when it was last said that it can't be written, or 0
  bool is_lost;     // what a guest wrote to it was in memory alone, and a device couldn't give it back
  struct vscsi_counts counts;  // what it did for devices that ended
  struct backlog backlog;
};

struct disks {
  struct disk disks[DEVICE_MOST_UNITS];
  struct vscsi_disk stores[DEVICE_MOST_UNITS];
  size_t count;
  bool moves;  // images are locked and loaded only while a queue is started, since the guest may move to another host
  bool held;   // they are
  bool is_served;  // a device of this daemon's had them
  bool has_lost;   // what a guest wrote was lost for want of memory, and no other guest began since
  struct storage *storage;  // of backed disks, or NULL
  size_t turn;              // which disk has its reads and writes begun first
  struct device rest;       // the daemon's own, which gives what front ends left of these disks in memory
  size_t rest_disks[DEVICE_MOST_UNITS], rest_count;
};

// Adds the disk of words T:L=SIZE[,file=PATH|,nbd=URI|,rbd=IMAGE][,rbd-conf=PATH][,rbd-user=NAME][,grow][,snapshot][,detect-zeroes=unmap]
// [,write-cache=on|off][,cache-size=SIZE][,direct=on|off][,rerror=report|stop][,werror=report|stop][,read-only=on|off]
// [,profile=narrow|wide][,NAMES], T:L=file=PATH[,..], T:L=nbd=URI[,..] or T:L=rbd=IMAGE[,..], in its place of the order. A comma of a
// path, a URI or an image stands there twice. Opens nothing: images_open does that. Returns false, and says why, where the words name no
// disk.
bool disks_add(struct disks *disks, const char *words, char *why, size_t room);

// Takes a size in bytes, with K, M, G or T behind it or none: whole blocks. `at` stands behind it then.
bool disks_size(const char **at, uint64_t *blocks);

// Finds the disk that words T:L=.. name, which disks_add took. Takes a disk out, and closes its image.
bool disks_find(const struct disks *disks, const char *words, size_t *which);
void disks_remove(struct disks *disks, size_t which);

// Returns whether each target has a LUN 0, which the device asks for, and there is a disk.
bool disks_are_whole(const struct disks *disks);

// Returns whether an NBD server has one of them, and whether a Ceph cluster has.
bool disks_connect(const struct disks *disks);
bool disks_have_images(const struct disks *disks);

// Closes all images and connections, and lets go of the blocks.
void disks_close(struct disks *disks);

// Reads whole blocks of a disk's file, or writes them there. No reading begins once a signal that ends the daemon has come. Zeros are left
// out where the file has a hole or room that was reserved and never written; elsewhere zeros become a hole only where `unmapped` is true
// or the disk punches. Each returns false where the system refused it, and errno says why.
bool disk_read(const struct disk *disk, uint64_t first, uint32_t count, uint8_t *into);
bool disk_write(struct disk *disk, uint64_t first, uint32_t count, const uint8_t *bytes, bool unmapped);

// Finds the first blocks from this one on that the file doesn't have as a hole. Returns false behind the last ones.
bool disk_next(const struct disk *disk, uint64_t *first, uint64_t *end);

// Waits until what was written stands on the disk's file (fdatasync). Returns false, with errno, where that isn't sure: then all
// that was written since the last call that returned true has to be written again.
bool disk_sync(struct disk *disk);

#endif

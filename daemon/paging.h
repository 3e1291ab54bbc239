// The pages of backed disks, between their files or NBD servers and the device: read as commands want them, and written as the guest
// changes them.
//
// A disk outlives its device, and keeps the pages in memory that its file lacks. So where no front end has a device, one of the daemon's own
// gives them. Pages that were written stand on the file for sure behind a sync, of which one covers many. Where it fails they are written
// again, all that it may have covered.
#ifndef DAEMON_PAGING_H
#define DAEMON_PAGING_H

#include "ahead.h"
#include "disks.h"
#include "library.h"

// Of a file that couldn't be read: the error number, or 0, and the page; whether the device was told that the page is lost, or it is tried
// again; milliseconds between two tries and the time of the next; and when that was last said, or 0.
struct trouble {
  int error;
  bool is_lost;
  unsigned pause;
  uint64_t page, due, told;
};

// Pages that follow one another and were written: whether that stands on the file isn't known yet, or a sync that is under way says it, or
// it does or doesn't, and the device is to be told. RUN_DENIED doesn't, and a flush of the guest's is to end by that.
struct run {
  uint64_t first;
  uint32_t count;
  enum run_state { RUN_WRITTEN, RUN_COVERED, RUN_KEPT, RUN_FAILED, RUN_DENIED } state;
};

enum { MOST_RUNS = 4096 };

// What was done with a disk's pages: how many commands wanted; of these, how many were handed in, how many of them read ahead, and how many
// couldn't be; how many were given to be written, how many of them stand there for sure, and how many have to be given once more; and how
// often that was made sure, and pages read and written.
struct paged {
  uint64_t asked, handed_in, ahead, unread, given, kept, failed, syncs, read, written;
};

struct paging {
  uint8_t target;          // by which the device knows the disk, and
  uint16_t lun;
  bool is_left;            // memory may have pages that the file lacks
  bool gave_all;           // the device had no page to be written when it was last to give some
  bool is_device;          // the file is a block device
  unsigned losses;         // of connections to its server, behind which what was written was given up
  unsigned told_losses;    // and of which it was said
  uint64_t told_away;      // when it was said last that there is none, or 0
  bool has_no_holes;       // it makes none
  bool fails;              // a write failed since writes were last begun anew
  bool starves;            // memory was refused, and is asked for again
  size_t transfers;        // under way
  bool syncs;              // one of them is a sync
  struct run runs[MOST_RUNS];
  size_t run_count, writes;  // of transfers that write, each of which needs a run
  uint64_t pages, since;   // how many are RUN_WRITTEN, and since when the first is
  struct trouble reading;  // that of writing is the disk's own
  bool has_turn;  // a page was wanted since paging_give was last called
  struct ahead ahead;
  struct paged counts;
};

// Returns whether a disk is backed.
bool paging_is_there(const struct disks *disks);

// Makes what backed disks need beside their files, which are open, and what one needs that comes later, where `comes` says that one may.
// Returns false, and says why, where a disk that is there can't have it. paging_close lets go of it.
bool paging_open(struct disks *disks, bool comes, char *why, size_t room);
void paging_close(struct disks *disks);

// Makes what a backed disk needs that comes later, whose file is open. Returns false, and says why, where it can't be.
bool paging_join(struct disks *disks, struct disk *disk, char *why, size_t room);

// Lets go of what one disk has of it, with which nothing is under way.
void paging_leave(struct disks *disks, struct disk *disk);

// Has an epoll tell this event, by edges, when something is over. Returns false where it can't be.
bool paging_watch(struct disks *disks, int epoll, uint32_t event);

// Has these disks be those of a device that was made of them.
void paging_begin(struct disks *disks);

// What was over when that was last looked at: nothing, reads that failed not, or something else as well.
enum came { CAME_NOTHING, CAME_READS, CAME_MORE };

// Tells the device what is over of reads and writes, and counts the reads besides. Where there was any, commands that wait are to be tried
// again.
enum came paging_take(struct disks *disks, struct device *device, size_t *reads);

// Whether commands wait for a sync: none does, or one may, or one does, unless it waits for something that is put off.
enum wait { WAITS_NOT, WAITS_PERHAPS, WAITS_SURELY };

// Begins to read the pages that commands want, and no more. Returns whether they want any. Says of pages that had been read ahead that some
// were handed in, as paging_give does.
bool paging_read(struct disks *disks, struct device *device, bool *handed_in);

// Begins what there is to read and to write, and syncs where it is time for that. Returns whether pages were handed in that had been read
// ahead, so that commands that wait are to be tried again.
bool paging_give(struct disks *disks, struct device *device, enum wait waits);

// Returns whether something is under way, or a read is. Then paging_take is called again.
bool paging_reads(const struct disks *disks);
bool paging_is_under_way(const struct disks *disks);

// Waits until something is over, for so many milliseconds at most.
void paging_wait(struct disks *disks, unsigned milliseconds);

// Waits until nothing is under way, and syncs what was written. No write of a disk is under way behind this, and none is begun. Returns false
// where something is at that time, in milliseconds of the clock: then it is called again.
bool paging_settle(struct disks *disks, struct device *device, uint64_t until);

// Settles, and finds of which disks memory has something that the file lacks, before the device ends. Returns false as paging_settle does.
bool paging_end(struct disks *disks, struct device *device, uint64_t until);

// Notes that a disk couldn't be had back from its device for want of memory: it begins anew, as its file is.
void paging_lose(struct disk *disk);

// Says once a minute of each file that can't be read why, and once that it can be again.
void paging_tell(struct disks *disks);

// Returns the error number by which a disk can't be read or written now, or 0.
int paging_error(const struct disk *disk);

// Returns whether memory may have something that the file of a disk, or of any, lacks.
bool paging_is_left(const struct disk *disk);
bool paging_are_left(const struct disks *disks);

// Writes what devices that ended left, while there is none. Returns whether more is left: then it is called again behind the next event.
bool paging_write_rest(struct disks *disks);

// Takes the disks back that paging_write_rest has. Returns false where memory was refused, or as paging_settle does.
bool paging_end_rest(struct disks *disks, uint64_t until);

// Writes what is left as the daemon ends, until a second has passed in which nothing more stands on a file. Returns false, and names a disk
// and why, where one lacks something.
bool paging_finish(struct disks *disks, char *why, size_t room);

#endif

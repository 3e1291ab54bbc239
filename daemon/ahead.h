// Pages of a backed disk that are read ahead: those behind what commands asked for, where that goes on page after page. They stand in a
// small buffer of the disk's until the device wants them.
//
// A page of it is handed in only where it is what the storage kept last, as the library asks for:
//
// 1. As a read begins, each page is left out that was given to be written, and of which the device wasn't told yet whether it is kept.
// 2. A page that is given later is dropped, whether it is being read or was (ahead_drop).
// 3. The storage gets another page only by what the device gave. There are two exceptions: the disk gets another size, or another daemon
//    has the file. Nothing is being read then, and all is forgotten (ahead_forget).
//
// Take a page that is handed in. By 1 nothing of it was under way when its read began, and by 2 nothing was given since. So what was given
// last came before the read, and was kept, or failed. If it was kept the read has it. If it failed, the device has the page in memory, as
// it changed it, and gives it once more before it can want it. Then 2 has dropped it. So it doesn't fail.
#ifndef DAEMON_AHEAD_H
#define DAEMON_AHEAD_H

#include <stdbool.h>
#include <stddef.h>
#include <stdint.h>

// How many chunks a disk has, and pages of each.
enum { AHEAD_CHUNKS = 4, CHUNK_PAGES = 64 };

// Pages that are read at once. Of each there is a bit that it may be handed in, and that a command waits for it.
struct chunk {
  enum { CHUNK_FREE, CHUNK_READING, CHUNK_READY } state;
  uint64_t first, stands, wanted;
  unsigned count;
  uint8_t *bytes;
};

struct ahead {
  uint8_t *room;  // of all chunks, or NULL
  struct chunk chunks[AHEAD_CHUNKS];
  uint64_t next;  // the page behind the one that was wanted last, how many before it were wanted in a row, and over how many turns
  uint64_t seen;
  unsigned turns;
  size_t under_way;
};

// Lets go of the buffer.
void ahead_end(struct ahead *ahead);

// Notes that the device wants a page, the first one of a turn or another one. Returns its bytes where they were read ahead: they are handed
// in now. Else `comes` tells whether the page is being read ahead, and is to be handed in then.
const uint8_t *ahead_take(struct ahead *ahead, uint64_t page, bool is_first, bool *comes);

// Begins a chunk of a disk that has so many whole pages. Returns NULL where there is nothing to read ahead now, or no room.
struct chunk *ahead_begin(struct ahead *ahead, uint64_t pages);

// Finds the chunk that is being read from a page on.
struct chunk *ahead_find(struct ahead *ahead, uint64_t first);

// Ends a read, behind what was done for the pages that commands wait for.
void ahead_finish(struct ahead *ahead, struct chunk *chunk, bool well);

// Has pages not be handed in of what is being read, or was. Forgets all.
void ahead_drop(struct ahead *ahead, uint64_t first, uint64_t count);
void ahead_forget(struct ahead *ahead);

// Returns whether a command waits for a page that is being read ahead.
bool ahead_is_wanted(const struct ahead *ahead);

#endif

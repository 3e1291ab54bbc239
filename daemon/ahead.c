#include "ahead.h"

#include <sys/mman.h>

#include "storage.h"

// How many pages behind the last one that was wanted are read ahead at most. A chunk is where so many pages were wanted in a row, over so
// many turns more than one: a long command alone is no habit of the guest's. All are behind more turns.
enum { WINDOW = AHEAD_CHUNKS * CHUNK_PAGES, ROOM = WINDOW * PAGE_BYTES, FEW_PAGES = 32, FEW_TURNS = 4, MANY_TURNS = 8 };

static uint64_t bit_of(const struct chunk *chunk, uint64_t page) { return UINT64_C(1) << (page - chunk->first); }

// Returns the chunk that has a page, or NULL.
static struct chunk *chunk_of(struct ahead *ahead, uint64_t page) {
  for (struct chunk *it = ahead->chunks; it < ahead->chunks + AHEAD_CHUNKS; it++)
    if (it->state != CHUNK_FREE && page >= it->first && page - it->first < it->count) return it;
  return NULL;
}

void ahead_end(struct ahead *ahead) {
  if (ahead->room) munmap(ahead->room, ROOM);
  ahead->room = NULL;
}

const uint8_t *ahead_take(struct ahead *ahead, uint64_t page, bool is_first, bool *comes) {
  struct chunk *chunk = chunk_of(ahead, page);
  bool goes_on = page == ahead->next;
  ahead->seen = goes_on ? ahead->seen + 1 : 0;
  ahead->turns = !goes_on ? 0 : ahead->turns + (is_first && ahead->turns < MANY_TURNS);
  ahead->next = page + 1;
  *comes = false;
  if (!chunk || !(chunk->stands & bit_of(chunk, page))) return NULL;
  if (chunk->state == CHUNK_READING) {
    chunk->wanted |= bit_of(chunk, page);
    *comes = true;
    return NULL;
  }
  chunk->stands &= ~bit_of(chunk, page);
  if (!chunk->stands) chunk->state = CHUNK_FREE;
  return chunk->bytes + (page - chunk->first) * PAGE_BYTES;
}

// Finds a chunk that is free, or of which nobody wants the rest.
static struct chunk *free_chunk(struct ahead *ahead) {
  for (struct chunk *it = ahead->chunks; it < ahead->chunks + AHEAD_CHUNKS; it++) {
    bool is_behind = it->first + it->count <= ahead->next || it->first >= ahead->next + WINDOW;
    if (it->state == CHUNK_FREE || (it->state == CHUNK_READY && is_behind)) return it;
  }
  return NULL;
}

// Makes the room, once. Where it is refused nothing is read ahead.
static bool has_room(struct ahead *ahead) {
  if (ahead->room) return true;
  void *room = mmap(NULL, ROOM, PROT_READ | PROT_WRITE, MAP_PRIVATE | MAP_ANONYMOUS, -1, 0);
  if (room == MAP_FAILED) return false;
  ahead->room = room;
  for (size_t i = 0; i < AHEAD_CHUNKS; i++) ahead->chunks[i].bytes = ahead->room + i * CHUNK_PAGES * PAGE_BYTES;
  return true;
}

struct chunk *ahead_begin(struct ahead *ahead, uint64_t pages) {
  uint64_t end = ahead->next, window = ahead->turns < MANY_TURNS ? CHUNK_PAGES : WINDOW;
  if (ahead->seen < FEW_PAGES || ahead->turns < FEW_TURNS) return NULL;
  for (const struct chunk *it = chunk_of(ahead, end); it; it = chunk_of(ahead, end)) end = it->first + it->count;
  if (end >= pages || end + CHUNK_PAGES > ahead->next + window || !has_room(ahead)) return NULL;
  struct chunk *chunk = free_chunk(ahead);
  if (!chunk) return NULL;
  chunk->state = CHUNK_READING;
  chunk->first = end;
  chunk->count = pages - end < CHUNK_PAGES ? (unsigned)(pages - end) : CHUNK_PAGES;
  chunk->stands = UINT64_MAX >> (CHUNK_PAGES - chunk->count);
  chunk->wanted = 0;
  ahead->under_way++;
  return chunk;
}

struct chunk *ahead_find(struct ahead *ahead, uint64_t first) {
  struct chunk *chunk = ahead->chunks;
  while (chunk->state != CHUNK_READING || chunk->first != first) chunk++;
  return chunk;
}

void ahead_finish(struct ahead *ahead, struct chunk *chunk, bool well) {
  chunk->stands &= ~chunk->wanted;
  chunk->wanted = 0;
  chunk->state = well && chunk->stands ? CHUNK_READY : CHUNK_FREE;
  ahead->under_way--;
}

void ahead_drop(struct ahead *ahead, uint64_t first, uint64_t count) {
  for (struct chunk *it = ahead->chunks; it < ahead->chunks + AHEAD_CHUNKS; it++) {
    uint64_t page = first > it->first ? first : it->first, end = it->first + it->count;
    if (end > first + count) end = first + count;
    for (; it->state != CHUNK_FREE && page < end; page++) it->stands &= ~bit_of(it, page);
  }
}

void ahead_forget(struct ahead *ahead) {
  for (struct chunk *it = ahead->chunks; it < ahead->chunks + AHEAD_CHUNKS; it++) it->state = CHUNK_FREE;
  ahead->seen = 0;
  ahead->turns = 0;
}

bool ahead_is_wanted(const struct ahead *ahead) {
  for (const struct chunk *it = ahead->chunks; ahead->under_way && it < ahead->chunks + AHEAD_CHUNKS; it++)
    if (it->state == CHUNK_READING && it->wanted) return true;
  return false;
}

#include "memory.h"

#include <fcntl.h>
#include <linux/magic.h>
#include <string.h>
#include <sys/mman.h>
#include <sys/stat.h>
#include <sys/vfs.h>

enum { PAGE = 4096 };

static bool overlap(uint64_t a, uint64_t b, uint64_t a_size, uint64_t b_size) { return a < b + b_size && b < a + a_size; }

// Asks that a file isn't made shorter. Not every file can be asked; then a byte that is gone is found as it is looked at
// (guard.h).
static void seal(int descriptor) {
  int seals = fcntl(descriptor, F_GET_SEALS);
  if (seals >= 0 && !(seals & F_SEAL_SHRINK)) fcntl(descriptor, F_ADD_SEALS, F_SEAL_SHRINK);
}

// A region past the end of its file couldn't be looked at.
static bool is_in_file(int descriptor, uint64_t end) {
  struct stat stat;
  return fstat(descriptor, &stat) == 0 && S_ISREG(stat.st_mode) && stat.st_size >= 0 && end <= (uint64_t)stat.st_size;
}

// Returns the bytes of a page of a file, which are more where its pages are huge.
static uint64_t page_of(int descriptor) {
  struct statfs stat;
  bool is_huge = fstatfs(descriptor, &stat) == 0 && stat.f_type == HUGETLBFS_MAGIC && stat.f_bsize > PAGE;
  return is_huge ? (uint64_t)stat.f_bsize : PAGE;
}

// Maps the whole pages that have a region.
static bool map(struct region *region, uint64_t offset, int descriptor) {
  uint64_t page = page_of(descriptor), before = offset % page, length = (before + region->size + page - 1) / page * page;
  void *at =
      mmap(NULL, (size_t)length, PROT_READ | PROT_WRITE, MAP_SHARED | MAP_NORESERVE, descriptor, (off_t)(offset - before));
  if (at == MAP_FAILED) return false;
  region->map = at;
  region->mapped = (size_t)length;
  region->at = (uint8_t *)at + before;
  return true;
}

// Returns the index of the first region that ends behind an address of the guest's.
static size_t index_of(const struct memory *memory, uint64_t guest) {
  size_t low = 0, high = memory->count;
  while (low < high) {
    size_t middle = (low + high) / 2;
    const struct region *region = &memory->regions[middle];
    if (guest >= region->guest && guest - region->guest >= region->size) low = middle + 1;
    else high = middle;
  }
  return low;
}

bool memory_add(struct memory *memory, uint64_t guest, uint64_t size, uint64_t user, uint64_t offset, int descriptor) {
  struct region region = {.guest = guest, .size = size, .user = user};
  uint64_t end;
  if (memory->count == MOST_REGIONS || size == 0 || size > PTRDIFF_MAX / 2 || descriptor < 0) return false;
  if (guest % PAGE || user % PAGE || offset % PAGE) return false;
  if (size > MEMORY_END || guest > MEMORY_END - size || user > UINT64_MAX - size ||
      __builtin_add_overflow(offset, size, &end) || end > INT64_MAX)
    return false;
  seal(descriptor);
  if (!is_in_file(descriptor, end)) return false;
  for (size_t i = 0; i < memory->count; i++) {
    const struct region *other = &memory->regions[i];
    if (overlap(guest, other->guest, size, other->size) || overlap(user, other->user, size, other->size)) return false;
  }
  if (!map(&region, offset, descriptor)) return false;
  size_t index = index_of(memory, guest);
  memmove(memory->regions + index + 1, memory->regions + index, (memory->count - index) * sizeof region);
  memory->regions[index] = region;
  memory->count++;
  return true;
}

bool memory_remove(struct memory *memory, uint64_t guest, uint64_t size, uint64_t user) {
  size_t index = index_of(memory, guest);
  struct region *region = memory->regions + index;
  if (index == memory->count || region->guest != guest || region->size != size || region->user != user) return false;
  munmap(region->map, region->mapped);
  memory->count--;
  memmove(region, region + 1, (memory->count - index) * sizeof *region);
  return true;
}

void memory_clear(struct memory *memory) {
  for (size_t i = 0; i < memory->count; i++) munmap(memory->regions[i].map, memory->regions[i].mapped);
  memory->count = 0;
}

bool memory_set(struct region *region, uint64_t size, uint64_t offset, int descriptor) {
  struct region set = {.size = size};
  uint64_t end;
  if (descriptor >= 0) {
    if (size == 0 || size > PTRDIFF_MAX / 2 || offset % PAGE || __builtin_add_overflow(offset, size, &end) || end > INT64_MAX)
      return false;
    seal(descriptor);
    if (!is_in_file(descriptor, end) || !map(&set, offset, descriptor)) return false;
  }
  if (region->map) munmap(region->map, region->mapped);
  *region = set;
  return true;
}

void memory_mark(const struct memory *memory, uint64_t guest, uint64_t count) {
  uint64_t last = count ? (guest + count - 1) / PAGE : 0;
  for (uint64_t page = guest / PAGE; count && page <= last && page / 8 < memory->log.size; page++)
    __atomic_fetch_or(memory->log.at + page / 8, (uint8_t)(1 << page % 8), __ATOMIC_RELEASE);
}

bool memory_blank(const struct memory *memory, const void *at) {
  for (size_t i = 0; i < memory->count + 2; i++) {
    const struct region *region = i < memory->count ? &memory->regions[i] : i == memory->count ? &memory->places : &memory->log;
    uintptr_t first = (uintptr_t)region->map;
    if ((uintptr_t)at < first || (uintptr_t)at - first >= region->mapped) continue;
    int flags = MAP_PRIVATE | MAP_ANONYMOUS | MAP_NORESERVE | MAP_FIXED;
    return mmap(region->map, region->mapped, PROT_READ | PROT_WRITE, flags, -1, 0) != MAP_FAILED;
  }
  return false;
}

uint8_t *memory_at(const struct memory *memory, uint64_t guest, uint64_t count) {
  const struct region *region = memory->regions + index_of(memory, guest);
  if (region == memory->regions + memory->count || guest < region->guest) return NULL;
  uint64_t before = guest - region->guest;
  return count <= region->size - before ? region->at + before : NULL;
}

bool memory_guest(const struct memory *memory, uint64_t user, uint64_t *guest) {
  for (size_t i = 0; i < memory->count; i++) {
    const struct region *region = &memory->regions[i];
    if (user < region->user || user - region->user >= region->size) continue;
    *guest = region->guest + (user - region->user);
    return true;
  }
  return false;
}

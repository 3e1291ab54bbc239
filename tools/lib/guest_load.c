// Runs in a guest: writes 4 KiB pages of a disk and reads them, by several threads, and compares every one.
//
//     load DEVICE THREADS SECONDS MIB
//
// Buffers lie anywhere in so many MiB of the guest's memory. A page has its own number and how often it was written, in each of its
// words. What a page had at the start is taken as it is, if it is one page of these; the seconds begin behind that. At the end each
// page is read once more.
#define _GNU_SOURCE
#include <fcntl.h>
#include <pthread.h>
#include <stdint.h>
#include <stdio.h>
#include <stdlib.h>
#include <string.h>
#include <sys/mman.h>
#include <time.h>
#include <unistd.h>

enum { PAGE = 4096, WORDS = PAGE / 8, MOST_THREADS = 64 };

static int device;
static uint64_t pages, rooms;
static unsigned threads;
static uint32_t *counts; // how often each page was written
static unsigned char *memory;
static time_t end;
static pthread_barrier_t found, begun;
static uint64_t done[MOST_THREADS];

static void fail(const char *what, uint64_t page) {
  printf("GUEST wrong: %s, page %llu\n", what, (unsigned long long)page);
  fflush(stdout);
  _exit(1);
}

static uint64_t word_of(uint64_t page, uint32_t count, unsigned at) {
  return count ? (page << 32 | count) * UINT64_C(0x9e3779b97f4a7c15) + at : 0;
}

static void compare(const uint64_t *words, uint64_t page, uint32_t count) {
  for (unsigned i = 0; i < WORDS; i++)
    if (words[i] != word_of(page, count, i)) fail("a word isn't what was written", page);
}

static void read_page(uint64_t page, uint64_t *words) {
  if (pread(device, words, PAGE, (off_t)(page * PAGE)) != PAGE) fail("it can't be read", page);
}

// Finds how often a page was written before.
static void find(uint64_t page, uint64_t *words) {
  read_page(page, words);
  uint64_t made = words[0] * UINT64_C(0xf1de83e19937733d); // the inverse
  counts[page] = (uint32_t)made;
  if (words[0] && made >> 32 != page) fail("it has another page", page);
  compare(words, page, counts[page]);
}

static void *work(void *which) {
  unsigned own = (unsigned)(uintptr_t)which;
  uint64_t seed = 88172645463325252u + own;

  for (uint64_t page = own; page < pages; page += threads) find(page, (uint64_t *)(memory + PAGE * own));
  pthread_barrier_wait(&found);
  pthread_barrier_wait(&begun);
  while (time(NULL) < end) {
    seed ^= seed << 13, seed ^= seed >> 7, seed ^= seed << 17;
    uint64_t page = (seed >> 8) % (pages / threads) * threads + own;
    // A room that no other thread uses meanwhile.
    uint64_t *words = (uint64_t *)(memory + PAGE * ((seed >> 24) % (rooms / threads) * threads + own));

    if (seed & 1) {
      counts[page]++;
      for (unsigned i = 0; i < WORDS; i++) words[i] = word_of(page, counts[page], i);
      if (pwrite(device, words, PAGE, (off_t)(page * PAGE)) != PAGE) fail("it can't be written", page);
    } else {
      memset(words, 0xee, PAGE);
      read_page(page, words);
      compare(words, page, counts[page]);
    }
    done[own]++;
  }
  return NULL;
}

int main(int count, char **words) {
  pthread_t its[MOST_THREADS];
  uint64_t all = 0;

  if (count != 5 || (device = open(words[1], O_RDWR | O_DIRECT)) < 0) fail("no device", 0);
  threads = (unsigned)atoi(words[2]);
  pages = (uint64_t)lseek(device, 0, SEEK_END) / PAGE;
  rooms = (uint64_t)atoi(words[4]) << 8;
  counts = calloc(pages, sizeof *counts);
  memory = mmap(NULL, rooms * PAGE, PROT_READ | PROT_WRITE, MAP_PRIVATE | MAP_ANONYMOUS | MAP_POPULATE, -1, 0);
  if (!counts || memory == MAP_FAILED || threads > MOST_THREADS) fail("no memory", 0);
  pthread_barrier_init(&found, NULL, threads + 1);
  pthread_barrier_init(&begun, NULL, threads + 1);
  for (unsigned i = 0; i < threads; i++)
    if (pthread_create(&its[i], NULL, work, (void *)(uintptr_t)i)) fail("no thread", i);
  pthread_barrier_wait(&found);
  end = time(NULL) + atoi(words[3]);
  printf("GUEST loads\n");
  fflush(stdout);
  pthread_barrier_wait(&begun);
  for (unsigned i = 0; i < threads; i++) pthread_join(its[i], NULL);
  for (uint64_t page = 0; page < pages; page++) {
    read_page(page, (uint64_t *)memory);
    compare((uint64_t *)memory, page, counts[page]);
  }
  for (unsigned i = 0; i < threads; i++) all += done[i];
  printf("GUEST loaded %llu requests, %llu pages right\n", (unsigned long long)all, (unsigned long long)pages);
  return 0;
}

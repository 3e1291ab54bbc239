// A vhost-user front end with the driver of one queue, which measures a back end:
//
//     front_bench SOCKET scsi|blk read|write|read-on|write-on BYTES DEPTH REQUESTS [PROCESS [SIZE APART USED SEED]]
//
// Requests go to any blocks of the first 32 MiB, each of which was written before. Or they go to those of SIZE bytes of which the first USED
// bytes of each APART are meant, as they are: an image of which other parts are holes. With read-on and write-on they follow one another.
//
// In each round it makes so many requests available, notifies once, and waits, with no interrupt, until all are used. It looks at every
// status, and prints nanoseconds a request, and those that the back end's process, if one is named, took of a processor.
//
// While it waits it runs, and where others want its processor the back end may be one of them. So behind some looks it lets others run
// in between: else each round would take as long as a turn of each of them. Where nothing is used for a minute it says how the rings
// stand, and whether one more notification helps.
#define _GNU_SOURCE
#include <dirent.h>
#include <errno.h>
#include <inttypes.h>
#include <sched.h>
#include <stdbool.h>
#include <stdint.h>
#include <stdio.h>
#include <stdlib.h>
#include <string.h>
#include <sys/eventfd.h>
#include <sys/mman.h>
#include <sys/socket.h>
#include <sys/un.h>
#include <time.h>
#include <unistd.h>

enum { GET_FEATURES = 1, SET_FEATURES, SET_OWNER, SET_MEM_TABLE = 5, SET_NUM = 8, SET_ADDR, SET_BASE, SET_KICK = 12, SET_CALL,
       GET_PROTOCOL = 15, SET_PROTOCOL, SET_ENABLE = 18 };
enum { MEMORY = 64 << 20, SIZE = 128, DESCRIPTORS = 0x1000, AVAILABLE = 0x2000, USED = 0x3000, REQUESTS = 0x10000, DATA = 0x100000,
       EACH = 0x10000, NEXT = 1, WRITE = 2 };
// How often it looks before it lets others run, and seconds in which something is used, and in which one more notification helps.
enum { LOOKS = 1000, PATIENCE = 60, AGAIN = 5 };
#define VERSION_1 (UINT64_C(1) << 32)
#define PROTOCOL (UINT64_C(1) << 30)

static unsigned char *memory;
static int back, kick;
static bool is_blk, is_write, follows;
static uint64_t disk = 32 << 20, apart = 32 << 20, meant = 32 << 20, seed = 88172645463325252u;

static void fail(const char *what) {
  fprintf(stderr, "front_bench: %s: %s\n", what, strerror(errno));
  exit(1);
}

static void say(uint32_t request, const void *payload, uint32_t size, int fd) {
  union {
    struct cmsghdr header;
    char room[CMSG_SPACE(sizeof(int))];
  } rights = {.header = {.cmsg_len = CMSG_LEN(sizeof(int)), .cmsg_level = SOL_SOCKET, .cmsg_type = SCM_RIGHTS}};
  unsigned char bytes[200];
  struct iovec part = {bytes, 12 + size};
  struct msghdr header = {.msg_iov = &part, .msg_iovlen = 1};
  const uint32_t head[] = {request, 1, size};

  memcpy(bytes, head, 12);
  memcpy(bytes + 12, payload, size);
  memcpy(CMSG_DATA(&rights.header), &fd, sizeof fd);
  if (fd >= 0) header.msg_control = &rights, header.msg_controllen = sizeof rights;
  if (sendmsg(back, &header, MSG_NOSIGNAL) != (ssize_t)part.iov_len) fail("a message");
}

static void say_number(uint32_t request, uint64_t number, int fd) { say(request, &number, 8, fd); }

static uint64_t ask(uint32_t request) {
  unsigned char bytes[20];
  uint64_t number;

  say(request, "", 0, -1);
  if (recv(back, bytes, 20, MSG_WAITALL) != 20) fail("a reply");
  memcpy(&number, bytes + 12, 8);
  return number;
}

static void begin(const char *path, uint64_t queue) {
  struct sockaddr_un address = {.sun_family = AF_UNIX};
  int file = memfd_create("guest", MFD_CLOEXEC);
  const uint64_t table[] = {1, 0, MEMORY, 0, 0}, areas[] = {queue, DESCRIPTORS, USED, AVAILABLE, 0};

  if (ftruncate(file, MEMORY)) fail("memory");
  memory = mmap(NULL, MEMORY, PROT_READ | PROT_WRITE, MAP_SHARED | MAP_POPULATE, file, 0);
  strncpy(address.sun_path, path, sizeof address.sun_path - 1);
  back = socket(AF_UNIX, SOCK_STREAM, 0);
  if (memory == MAP_FAILED || connect(back, (struct sockaddr *)&address, sizeof address)) fail(path);
  kick = eventfd(0, 0);
  uint64_t features = ask(GET_FEATURES);
  if (features & PROTOCOL) {
    ask(GET_PROTOCOL);
    say_number(SET_PROTOCOL, 0, -1);
  }
  say(SET_OWNER, "", 0, -1);
  say_number(SET_FEATURES, features & (VERSION_1 | PROTOCOL), -1);
  say(SET_MEM_TABLE, table, sizeof table, file);
  say_number(SET_NUM, queue | (uint64_t)SIZE << 32, -1);
  say_number(SET_BASE, queue, -1);
  say(SET_ADDR, areas, sizeof areas, -1);
  say_number(SET_CALL, queue, eventfd(0, EFD_NONBLOCK));
  say_number(SET_KICK, queue, kick);
  if (features & PROTOCOL) say_number(SET_ENABLE, queue | UINT64_C(1) << 32, -1);
  *(uint16_t *)(memory + AVAILABLE) = 1;
}

static void put_part(unsigned slot, uint64_t addr, uint32_t length, unsigned flags) {
  struct {
    uint64_t addr;
    uint32_t length;
    uint16_t flags, next;
  } part = {addr, length, (uint16_t)flags, (uint16_t)(slot + 1)};

  memcpy(memory + DESCRIPTORS + 16 * slot, &part, 16);
}

// Writes request i, which is one of the same place and the same descriptors in each round, but for the block.
static void put_request(unsigned i, uint64_t block, uint32_t bytes) {
  uint64_t at = REQUESTS + 0x200 * i, answer = at + 0x100, data = DATA + (uint64_t)EACH * i;
  unsigned slot = 3 * i, head = is_blk ? 16 : 51, response = is_blk ? 1 : 108;

  if (is_blk) {
    *(uint32_t *)(memory + at) = is_write;
    *(uint64_t *)(memory + at + 8) = block;
  } else {
    const unsigned char command[] = {is_write ? 0x2a : 0x28, 0, (unsigned char)(block >> 24), (unsigned char)(block >> 16), (unsigned char)(block >> 8),
                                     (unsigned char)block, 0, (unsigned char)(bytes / 512 >> 8), (unsigned char)(bytes / 512), 0};
    memcpy(memory + at, (const unsigned char[]){1, 0, 0x40, 0}, 4);
    memcpy(memory + at + 19, command, sizeof command);
  }
  memory[answer + (is_blk ? 0 : 11)] = 0xee;
  put_part(slot, at, (uint32_t)head, NEXT);
  bool data_first = is_blk || is_write;
  put_part(slot + 1, data_first ? data : answer, data_first ? bytes : (uint32_t)response, NEXT | (data_first && is_write ? 0 : WRITE));
  put_part(slot + 2, data_first ? answer : data, data_first ? (uint32_t)response : bytes, WRITE);
}

static void look(unsigned i) {
  const unsigned char *answer = memory + REQUESTS + 0x200 * i + 0x100;

  if (is_blk ? answer[0] : answer[10] || answer[11]) fail("a status");
}

static uint64_t now(void) {
  struct timespec time;
  clock_gettime(CLOCK_MONOTONIC, &time);
  return (uint64_t)time.tv_sec * 1000000000 + (uint64_t)time.tv_nsec;
}

static uint16_t used(void) { return __atomic_load_n((uint16_t *)(memory + USED + 2), __ATOMIC_ACQUIRE); }

// Waits until all up to a place is used, for so many seconds behind the last that was.
static bool wait_for(uint16_t next, uint64_t seconds) {
  uint64_t since = 0;
  uint16_t seen = used();

  for (uint64_t looks = 0; used() != next; looks++) {
    if (looks < LOOKS) {
      __builtin_ia32_pause();
      continue;
    }
    if (!since || used() != seen) since = now(), seen = used();
    if (now() - since > seconds * 1000000000) return false;
    sched_yield();
  }
  return true;
}

static void give_up(uint16_t next) {
  fprintf(stderr, "front_bench: available %u, used %u, flags %u: nothing for %d seconds\n", next, used(), *(uint16_t *)(memory + USED), PATIENCE);
  eventfd_write(kick, 1);
  fprintf(stderr, "front_bench: one more notification %s\n", wait_for(next, AGAIN) ? "helps" : "doesn't help");
  exit(1);
}

// Has requests to these blocks served.
static void serve(const uint64_t *blocks, unsigned depth, uint32_t bytes) {
  static uint16_t next;

  for (unsigned i = 0; i < depth; i++) {
    put_request(i, blocks[i], bytes);
    *(uint16_t *)(memory + AVAILABLE + 4 + 2 * ((next + i) % SIZE)) = (uint16_t)(3 * i);
  }
  next = (uint16_t)(next + depth);
  __atomic_store_n((uint16_t *)(memory + AVAILABLE + 2), next, __ATOMIC_RELEASE);
  __atomic_thread_fence(__ATOMIC_SEQ_CST);
  if (!(*(volatile uint16_t *)(memory + USED) & 1)) eventfd_write(kick, 1);
  if (!wait_for(next, PATIENCE)) give_up(next);
  for (unsigned i = 0; i < depth; i++) look(i);
}

// Writes each block once, since the first WRITE of one costs more than later ones.
static void fill(void) {
  bool writes = is_write;
  is_write = true;
  for (uint64_t block = 0; block < disk / 512; block += EACH / 512) serve(&block, 1, EACH);
  is_write = writes;
}

static void run(uint64_t rounds, unsigned depth, uint32_t bytes) {
  static uint64_t next;
  uint64_t blocks[SIZE], each = meant / bytes, count = disk / apart * each;

  for (uint64_t round = 0; round < rounds; round++) {
    for (unsigned i = 0; i < depth; i++) {
      seed ^= seed << 13, seed ^= seed >> 7, seed ^= seed << 17;
      uint64_t which = follows ? next++ % count : seed % count;
      blocks[i] = which / each * (apart / 512) + which % each * (bytes / 512);
    }
    serve(blocks, depth, bytes);
  }
}

// Returns how many nanoseconds the threads of a process ran.
static uint64_t ran(const char *process) {
  char path[400];
  uint64_t all = 0, its;

  snprintf(path, sizeof path, "/proc/%s/task", process);
  DIR *threads = opendir(path);
  for (struct dirent *it; threads && (it = readdir(threads));) {
    if (*it->d_name == '.') continue;  // the folder above has the first thread's, too
    snprintf(path, sizeof path, "/proc/%s/task/%s/schedstat", process, it->d_name);
    FILE *file = fopen(path, "r");
    if (file && fscanf(file, "%" SCNu64, &its) == 1) all += its;
    if (file) fclose(file);
  }
  if (threads) closedir(threads);
  return all;
}

int main(int count, char **words) {
  if (count < 7) return fputs("front_bench SOCKET scsi|blk read|write|read-on|write-on BYTES DEPTH REQUESTS [PROCESS [SIZE APART USED SEED]]\n", stderr), 2;
  is_blk = !strcmp(words[2], "blk");
  is_write = !strncmp(words[3], "write", 5);
  follows = strstr(words[3], "-on");
  bool is_as_it_is = count == 12;
  if (is_as_it_is) {
    disk = strtoull(words[8], NULL, 10), apart = strtoull(words[9], NULL, 10), meant = strtoull(words[10], NULL, 10);
    seed += strtoull(words[11], NULL, 10);
  }
  uint32_t bytes = (uint32_t)atoi(words[4]);
  unsigned depth = (unsigned)atoi(words[5]);
  uint64_t requests = strtoull(words[6], NULL, 10), rounds = requests / depth;
  const char *process = count > 7 ? words[7] : "none";

  begin(words[1], is_blk ? 0 : 2);
  if (!is_as_it_is) fill(), run(rounds / 10 + 1, depth, bytes);
  uint64_t began = now(), before = ran(process);
  run(rounds, depth, bytes);
  uint64_t took = now() - began, processor = ran(process) - before;
  printf("%.0f %.0f\n", (double)took / (double)(rounds * depth), (double)processor / (double)(rounds * depth));
  return 0;
}

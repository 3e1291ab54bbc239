// A vhost-user front end with the driver of one request queue, or with `several` of three, which looks for notifications that get lost:
//
//     front_stress SOCKET SEED ROUNDS LONGEST [event-index] [packed] [sleeps] [several]
//
// In each round it makes 1 to 8 TEST UNIT READYs available in a queue, notifies once, where the device asks for that, and waits until all
// are used: by looking there, or with `sleeps` for a notification. Then it waits for up to LONGEST nanoseconds. Where nothing comes
// for 10 seconds it says how the rings stand, notifies once more, and says whether that helps. The status is 1 then. It prints how many
// rounds there were, and how often it notified and was notified.
#define _GNU_SOURCE
#include <errno.h>
#include <poll.h>
#include <sched.h>
#include <stdbool.h>
#include <stdint.h>
#include <stdio.h>
#include <stdlib.h>
#include <string.h>
#include <sys/eventfd.h>
#include <sys/mman.h>
#include <sys/socket.h>
#include <sys/un.h>
#include <time.h>
#include <unistd.h>

enum { GET_FEATURES = 1, SET_FEATURES, SET_OWNER, SET_MEM_TABLE = 5, SET_NUM = 8, SET_ADDR, SET_BASE, SET_KICK = 12, SET_CALL,
       GET_PROTOCOL = 15, SET_PROTOCOL, SET_ENABLE = 18 };
enum { MEMORY = 1 << 20, SIZE = 64, QUEUE = 2, SEVERAL = 3, EACH = 0x20000, DESCRIPTORS = 0x1000, AVAILABLE = 0x2000, USED = 0x3000, REQUESTS = 0x10000, NEXT = 1,
       WRITE = 2, IS_AVAILABLE = 0x80, IS_USED = 0x8000, WRAPS = INT32_MIN | 0x8000, HEAD = 51, RESPONSE = 108, MOST_DEPTH = 8, PATIENCE = 10, AGAIN = 2,
       LOOKS = 1000 };
#define VERSION_1 (UINT64_C(1) << 32)
#define EVENT_INDEX (UINT64_C(1) << 29)
#define PACKED (UINT64_C(1) << 34)
#define PROTOCOL (UINT64_C(1) << 30)
#define SECOND UINT64_C(1000000000)

static unsigned char *memory;
static int back;
static bool has_event_index, is_packed, sleeps;
static uint64_t seed, kicks, calls;

// A queue: where its memory begins; how many chains were made available and used; and of a packed ring where both sides stand, and their
// wrap counters.
static struct queue {
  size_t from;
  int kick, call;
  uint16_t next, done, slot, used_slot;
  bool wrap, used_wrap;
} queues[SEVERAL], *queue = queues;

static void fail(const char *what) {
  fprintf(stderr, "front_stress: %s: %s\n", what, strerror(errno));
  exit(1);
}

static void say(uint32_t request, const void *payload, uint32_t size, int fd) {
  union {
    struct cmsghdr header;
    char room[CMSG_SPACE(sizeof(int))];
  } rights = {.header = {.cmsg_len = CMSG_LEN(sizeof(int)), .cmsg_level = SOL_SOCKET, .cmsg_type = SCM_RIGHTS}};
  unsigned char bytes[200];
  struct iovec part = {bytes, 12 + size};
  struct msghdr header = {.msg_iov = &part, .msg_iovlen = 1};
  const uint32_t head[] = {request, 1, size};

  memcpy(bytes, head, 12);
  memcpy(bytes + 12, payload, size);
  memcpy(CMSG_DATA(&rights.header), &fd, sizeof fd);
  if (fd >= 0) header.msg_control = &rights, header.msg_controllen = sizeof rights;
  if (sendmsg(back, &header, MSG_NOSIGNAL) != (ssize_t)part.iov_len) fail("a message");
}

static void say_number(uint32_t request, uint64_t number, int fd) { say(request, &number, 8, fd); }

static uint64_t ask(uint32_t request) {
  unsigned char bytes[20];
  uint64_t number;

  say(request, "", 0, -1);
  if (recv(back, bytes, 20, MSG_WAITALL) != 20) fail("a reply");
  memcpy(&number, bytes + 12, 8);
  return number;
}

static uint16_t load(size_t at) { return __atomic_load_n((const uint16_t *)(const void *)(memory + queue->from + at), __ATOMIC_ACQUIRE); }

static void store(size_t at, uint16_t number) { __atomic_store_n((uint16_t *)(void *)(memory + queue->from + at), number, __ATOMIC_RELEASE); }

// Tells the device of the next queue, whose number this is.
static void add(uint64_t number) {
  uint64_t from = (number - QUEUE) * EACH;
  const uint64_t areas[] = {number, from + DESCRIPTORS, from + USED, from + AVAILABLE, 0};

  *queue = (struct queue){.from = from, .kick = eventfd(0, 0), .call = eventfd(0, EFD_NONBLOCK), .wrap = true, .used_wrap = true};
  store(AVAILABLE + (is_packed ? 2 : 0), !sleeps);
  say_number(SET_NUM, number | (uint64_t)SIZE << 32, -1);
  say_number(SET_BASE, number | (is_packed ? (uint64_t)(uint32_t)WRAPS << 32 : 0), -1);
  say(SET_ADDR, areas, sizeof areas, -1);
  say_number(SET_CALL, number, queue->call);
  say_number(SET_KICK, number, queue->kick);
  say_number(SET_ENABLE, number | UINT64_C(1) << 32, -1);
}

static void begin(const char *path, unsigned count) {
  struct sockaddr_un address = {.sun_family = AF_UNIX};
  int file = memfd_create("guest", MFD_CLOEXEC);
  const uint64_t table[] = {1, 0, MEMORY, 0, 0};

  if (ftruncate(file, MEMORY)) fail("memory");
  memory = mmap(NULL, MEMORY, PROT_READ | PROT_WRITE, MAP_SHARED | MAP_POPULATE, file, 0);
  strncpy(address.sun_path, path, sizeof address.sun_path - 1);
  back = socket(AF_UNIX, SOCK_STREAM, 0);
  if (memory == MAP_FAILED || connect(back, (struct sockaddr *)&address, sizeof address)) fail(path);
  ask(GET_FEATURES);
  ask(GET_PROTOCOL);
  say_number(SET_PROTOCOL, 0, -1);
  say(SET_OWNER, "", 0, -1);
  say_number(SET_FEATURES, VERSION_1 | PROTOCOL | (has_event_index ? EVENT_INDEX : 0) | (is_packed ? PACKED : 0), -1);
  say(SET_MEM_TABLE, table, sizeof table, file);
  for (unsigned i = 0; i < count; i++) {
    queue = queues + i;
    add(QUEUE + i);
  }
}

// Writes a descriptor: its address and length, and two numbers of each form's own.
static void put_part(unsigned at, uint64_t addr, uint32_t length, unsigned third, unsigned fourth) {
  struct {
    uint64_t addr;
    uint32_t length;
    uint16_t third, fourth;
  } part = {addr, length, (uint16_t)third, (uint16_t)fourth};

  memcpy(memory + queue->from + DESCRIPTORS + 16 * at, &part, 16);
}

// Makes a chain available, of a packed ring but for the flags of its first descriptor.
static void put_chain(unsigned i, uint64_t at, uint64_t answer) {
  unsigned available = queue->wrap ? IS_AVAILABLE : IS_USED;

  if (is_packed) {
    put_part(queue->slot, at, HEAD, i, queue->wrap ? IS_USED : IS_AVAILABLE);
    put_part(queue->slot + 1, answer, RESPONSE, i, WRITE | available);
    return;
  }
  put_part(2 * i, at, HEAD, NEXT, 2 * i + 1);
  put_part(2 * i + 1, answer, RESPONSE, WRITE, 0);
  store(AVAILABLE + 4 + 2 * ((queue->next + i) % SIZE), (uint16_t)(2 * i));
}

static void put_request(unsigned i) {
  uint64_t at = queue->from + REQUESTS + 0x200 * i, answer = at + 0x100;

  memset(memory + at, 0, HEAD);
  memcpy(memory + at, (const unsigned char[]){1, 0, 0x40, 0}, 4);
  memory[answer + 11] = 0xee;
  put_chain(i, at, answer);
}

// Shows a chain of a packed ring to the device, and goes on behind it.
static void show_chain(void) {
  store(DESCRIPTORS + 16 * queue->slot + 14, (uint16_t)(NEXT | (queue->wrap ? IS_AVAILABLE : IS_USED)));
  queue->slot = (queue->slot + 2) % SIZE;
  if (!queue->slot) queue->wrap = !queue->wrap;
}

// Returns how many chains were used.
static uint16_t used(void) {
  if (!is_packed) return load(USED + 2);
  for (uint16_t flags; flags = load(DESCRIPTORS + 16 * queue->used_slot + 14),
                       !(flags & IS_AVAILABLE) == !queue->used_wrap && !(flags & IS_USED) == !queue->used_wrap;) {
    queue->done++;
    queue->used_slot = (queue->used_slot + 2) % SIZE;
    if (!queue->used_slot) queue->used_wrap = !queue->used_wrap;
  }
  return queue->done;
}

static uint64_t now(void) {
  struct timespec time;
  clock_gettime(CLOCK_MONOTONIC, &time);
  return (uint64_t)time.tv_sec * SECOND + (uint64_t)time.tv_nsec;
}

static uint64_t random_below(uint64_t most) {
  seed ^= seed << 13, seed ^= seed >> 7, seed ^= seed << 17;
  return most ? seed % most : 0;
}

static bool is_over(void) { return used() == queue->next; }

// Waits until all is used, for so many seconds. Of what comes by the last notification the driver asks for one.
static bool wait_all(uint64_t seconds) {
  uint64_t until = now() + seconds * SECOND, count;

  for (unsigned i = 1; !is_over(); i++) {
    struct pollfd asked = {.fd = queue->call, .events = POLLIN};
    int came = sleeps ? poll(&asked, 1, 100) : 0;
    if (came && read(queue->call, &count, sizeof count) == sizeof count) calls++;
    // It may just have come.
    if (sleeps && !came && is_over() && !poll(&asked, 1, 1000)) fail("all is used, and the device didn't notify");
    if (!sleeps && i < LOOKS) __builtin_ia32_pause();
    else if (now() >= until) return false;
    else if (!sleeps) sched_yield();
  }
  return true;
}

// Whether the device asks to be notified of what was made available since a place (VIRTIO 1.2, 2.7.10 and 2.8.10).
static bool is_asked(uint16_t before) {
  if (is_packed) return load(USED + 2) != 1;
  if (!has_event_index) return !(load(USED) & 1);
  uint16_t event = load(USED + 4 + 8 * SIZE);
  return (uint16_t)(queue->next - event - 1) < (uint16_t)(queue->next - before);
}

// Says how the rings stand, and tries whether one more notification helps.
static void give_up(uint64_t round) {
  fprintf(stderr, "front_stress: round %ju: nothing for %d seconds: available %u, used %u, flags %u, asked at %u; notified %ju times\n", (uintmax_t)round,
          PATIENCE, queue->next, used(), load(USED + (is_packed ? 2 : 0)), load(USED + 4 + 8 * SIZE), (uintmax_t)kicks);
  eventfd_write(queue->kick, 1);
  bool helps = wait_all(AGAIN);
  fprintf(stderr, "front_stress: one more notification %s\n", helps ? "helps" : "doesn't help");
  exit(1);
}

static void serve(uint64_t round) {
  unsigned depth = 1 + (unsigned)random_below(random_below(2) ? 1 : MOST_DEPTH);
  uint16_t before = queue->next;
  uint64_t count;

  for (unsigned i = 0; i < depth; i++) {
    put_request(i);
    if (is_packed) show_chain();
  }
  queue->next = (uint16_t)(queue->next + depth);
  if (sleeps && read(queue->call, &count, sizeof count) > 0) calls++;
  if (has_event_index && !is_packed) store(AVAILABLE + 4 + 2 * SIZE, (uint16_t)(sleeps ? queue->next - 1 : queue->next + 0x8000));
  if (!is_packed) store(AVAILABLE + 2, queue->next);
  __atomic_thread_fence(__ATOMIC_SEQ_CST);
  if (is_asked(before)) {
    eventfd_write(queue->kick, 1);
    kicks++;
  }
  if (!wait_all(PATIENCE)) give_up(round);
  for (unsigned i = 0; i < depth; i++)
    if (memory[queue->from + REQUESTS + 0x200 * i + 0x100 + 11]) fail("a response");
}

static void rest(uint64_t longest) {
  uint64_t time = random_below(longest), until = now() + time;

  if (random_below(4) == 0) nanosleep(&(struct timespec){.tv_nsec = (long)(time % SECOND)}, NULL);
  while (now() < until) __builtin_ia32_pause();
}

int main(int count, char **words) {
  if (count < 5) return fputs("front_stress SOCKET SEED ROUNDS LONGEST [event-index] [packed] [sleeps] [several]\n", stderr), 2;
  seed = 88172645463325252u ^ strtoull(words[2], NULL, 10) * 2654435761u;
  unsigned used_queues = 1;
  uint64_t rounds = strtoull(words[3], NULL, 10), longest = strtoull(words[4], NULL, 10);
  for (int i = 5; i < count; i++) {
    has_event_index = has_event_index || !strcmp(words[i], "event-index");
    is_packed = is_packed || !strcmp(words[i], "packed");
    sleeps = sleeps || !strcmp(words[i], "sleeps");
    used_queues = !strcmp(words[i], "several") ? SEVERAL : used_queues;
  }
  begin(words[1], used_queues);
  for (uint64_t round = 0; round < rounds; round++) {
    // Most rounds go on in the queue of the one before.
    if (!random_below(3)) queue = queues + random_below(used_queues);
    serve(round);
    rest(longest);
  }
  printf("%ju %ju %ju\n", (uintmax_t)rounds, (uintmax_t)kicks, (uintmax_t)calls);
  return 0;
}

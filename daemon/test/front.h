// A front end and a driver in it, over a socket pair, with a session of the daemon's at the other end.
#ifndef DAEMON_TEST_FRONT_H
#define DAEMON_TEST_FRONT_H

#include "../session.h"

enum { GUEST_BYTES = 8 << 20, HALF = GUEST_BYTES / 2, SIZE = 16, QUEUES = 5, USER = 0x7000000, FAR_USER = 0x70000000 };

// Flags of descriptors, and the bytes of a request's head and of its response.
enum { FLAG_NEXT = 1, FLAG_WRITE = 2, FLAG_INDIRECT = 4, FLAG_AVAILABLE = 0x80, FLAG_USED = 0x8000, HEAD = 51, RESPONSE = 108 };

// How a session is: which form its rings have and which features, and how the guest's memory lies.
struct way {
  bool packed, event_index, indirect, far;
  struct polling polling;
};

// Returns the way with this number, 0 to 15.
enum { WAYS = 16 };
struct way way_of(unsigned number);

struct driver_queue {
  uint16_t next, seen, free;  // of a split ring counts; of a packed one places
  uint16_t told;              // of a split ring, where it stood at the last chance to notify
  bool next_wrap, seen_wrap;
};

struct front {
  struct way way;
  struct session session;
  struct disks *disks;
  int socket, epoll, memory_fd;
  uint16_t size;  // of each ring
  bool swapped;   // the halves of memory changed their places in the guest's addresses
  uint8_t *memory;
  bool alive;
  int kick[QUEUES], call[QUEUES], err[QUEUES];
  struct driver_queue queues[QUEUES];
};

// A message as a front end sends it.
struct sent {
  uint8_t bytes[HEADER + MOST_PAYLOAD];
  size_t length;
  int fds[MOST_FDS];
  size_t fd_count;
};

// Ends the test where something isn't so.
#define MUST(is_so) ((is_so) ? (void)0 : fail(__FILE__, __LINE__, #is_so))
_Noreturn void fail(const char *file, int line, const char *what);

// Begins a session whose rings have SIZE descriptors, or another power of two up to 1,024.
void front_begin(struct front *front, struct disks *disks, struct way way);
void front_begin_sized(struct front *front, struct disks *disks, struct way way, uint16_t size);
void front_end(struct front *front);

// Ends the session, as where the daemon dies, and begins another one over the same memory.
void front_again(struct front *front);

// Has the daemon make memory in which it notes where rings stand. Returns its descriptor. front_give_places gives it.
int front_places(struct front *front);
bool front_give_places(struct front *front, int file);

// Runs the daemon's session until it has nothing to do, or has its event loop turn once, without waiting.
void pump(struct front *front);
void turn(struct front *front);

bool front_send(const struct front *front, const struct sent *sent, size_t from, size_t to);

// Sends a message whose payload is one number.
void front_say(const struct front *front, uint32_t request, uint64_t number);

// Fills the messages that set all queues up, from `base` on, and returns how many there are.
size_t front_set_up(const struct front *front, struct sent *sent, uint32_t base);

// Fills a message that adds or removes a region, or a table of regions that get their descriptors one after the other. A region
// is (guest's address, size, front end's address, place).
struct area {
  uint64_t guest, size, user, place;
};
void front_region(const struct front *front, struct sent *sent, uint32_t request, struct area area);
void front_table(const struct front *front, struct sent *sent, const struct area *areas, unsigned count);

// Returns where half 0 or 1 of the memory lies.
struct area front_half(const struct front *front, unsigned half);

// Fills a message of a queue that gives a descriptor, or none where it is below 0.
void front_descriptor(struct sent *sent, uint32_t request, unsigned q, int fd);

// Sends a message that is acknowledged. Returns whether it was taken.
bool front_ask(struct front *front, const struct sent *sent);

// Sends these messages, and expects each acknowledgement.
void front_agree(struct front *front);

// Takes a reply. Returns its payload's length, or 0.
size_t front_reply(struct front *front, uint8_t *payload, size_t room);

// Stops a queue, and gives its base. front_start has it go on there.
uint32_t front_stop(struct front *front, unsigned q);
void front_start(struct front *front, unsigned q, uint32_t base);

// Where the guest's bytes stand: by their place, and by the address that the guest has for it.
uint64_t guest_of(const struct front *front, uint64_t place);
uint64_t place_of(unsigned q, unsigned part);

// Makes a chain of these parts available, without a kick. Parts are (place, length, writable).
struct part {
  uint64_t place;
  uint32_t length;
  bool writable;
};
void driver_put(struct front *front, unsigned q, const struct part *parts, unsigned count);
void driver_kick(struct front *front, unsigned q);

// Makes a chain available whose one descriptor names the table in this part.
void driver_put_table(struct front *front, unsigned q, struct part table);

// Looks at the next used element, if there is one; of a split ring it also goes on behind it. driver_next does so of either,
// for a chain of so many parts.
bool driver_take(struct front *front, unsigned q, uint32_t *length);
bool driver_next(struct front *front, unsigned q, unsigned count, uint32_t *length);

// Makes a chain available, kicks, lets the daemon serve, and takes the used element. Returns false where there was none.
bool driver_run(struct front *front, unsigned q, const struct part *parts, unsigned count, uint32_t *length);

// Writes the head of a request to disk 0:0.
void put_request(struct front *front, uint64_t place, const uint8_t *block, size_t length);

// Runs a command of disk 0:0, and returns its status, or -1 where there was no answer.
int command(struct front *front, unsigned q, const uint8_t *block, size_t length, const void *out, uint32_t out_length,
            void *in, uint32_t in_length);

#endif

// What a front end and its driver may do, and what then stands.
#include <dirent.h>
#include <fcntl.h>
#include <stdio.h>
#include <stdlib.h>
#include <string.h>
#include <unistd.h>

#include "../bytes.h"
#include "../images.h"
#include "../storage.h"
#include "backed.h"
#include "chains.h"
#include "front.h"
#include "holds.h"
#include "logs.h"
#include "rounds.h"
#include "sessions.h"
#include "stops.h"

static const uint8_t write_10[] = {0x2a, 0, 0, 0, 0, 3, 0, 0, 16, 0}, read_10[] = {0x28, 0, 0, 0, 0, 3, 0, 0, 16, 0};
static const uint8_t inquiry[] = {0x12, 0, 0, 0, 36, 0}, same_10[] = {0x41, 0, 0, 0, 0, 40, 0, 0, 5, 0}, ready[] = {0, 0, 0, 0, 0, 0};
static const uint8_t compare_16[16] = {0x89, 0, 0, 0, 0, 0, 0, 0, 0, 41, 0, 0, 0, 1};
static const uint8_t unmap_10[] = {0x42, 0, 0, 0, 0, 0, 0, 0, 24, 0};

enum { BYTES = 16 * 512, MOST_MESSAGES = 64, CHANGES = 700 };

static unsigned open_files(void) {
  unsigned count = 0;
  DIR *folder = opendir("/proc/self/fd");
  while (readdir(folder)) count++;
  closedir(folder);
  return count;
}

static void make_disks(struct disks *disks, const char *words) {
  char why[200];
  MUST(disks_add(disks, words, why, sizeof why));
  MUST(disks_are_whole(disks));
  MUST(images_open(disks, why, sizeof why) && images_make(disks, (uid_t)-1, (gid_t)-1, why, sizeof why));
}

// Commands of every kind that changes blocks; what they leave is looked at by each later session.
static void work(struct front *front, uint8_t *kept) {
  uint8_t data[BYTES], found[BYTES], list[24] = {0, 22, 0, 16};
  for (size_t i = 0; i < sizeof data; i++) data[i] = (uint8_t)(rand() >> 7);
  MUST(command(front, 2, write_10, sizeof write_10, data, BYTES, NULL, 0) == 0);
  MUST(command(front, 3, read_10, sizeof read_10, NULL, 0, found, BYTES) == 0 && !memcmp(data, found, BYTES));
  MUST(command(front, 4, same_10, sizeof same_10, data, 512, NULL, 0) == 0);
  memcpy(found, data, 512);
  memcpy(found + 512, data + 512, 512);
  MUST(command(front, 2, compare_16, 16, found, 1024, NULL, 0) == 0);
  MUST(command(front, 2, compare_16, 16, found, 1024, NULL, 0) == 2);
  little_put(list + 8, 0, 7);
  list[15] = 3;
  list[19] = 1;
  MUST(command(front, 3, unmap_10, sizeof unmap_10, list, sizeof list, NULL, 0) == 0);
  memset(data, 0, 512);
  memcpy(kept, data, BYTES);
  MUST(command(front, 4, inquiry, sizeof inquiry, NULL, 0, found, 36) == 0 && !memcmp(found + 8, "VSCSI", 5));
}

static void look(struct front *front, const uint8_t *kept) {
  uint8_t found[BYTES], five[5 * 512];
  const uint8_t read_five[] = {0x28, 0, 0, 0, 0, 40, 0, 0, 5, 0};
  MUST(command(front, 2, read_10, sizeof read_10, NULL, 0, found, BYTES) == 0 && !memcmp(kept, found, BYTES));
  MUST(command(front, 3, read_five, sizeof read_five, NULL, 0, five, sizeof five) == 0);
  MUST(!memcmp(five + 512, kept + 512, 512));
  MUST(!memcmp(five, five + 1024, 512));
  MUST(five[0] + five[1] + five[2]);
}

// Requests of all queues at once, and event buffers that stay with the device.
static void crowd(struct front *front) {
  uint32_t length;
  const struct part event = {0x300000, 16, true};
  for (unsigned i = 0; i < 3; i++) driver_put(front, EVENT_QUEUE, &event, 1);
  driver_kick(front, EVENT_QUEUE);
  pump(front);
  MUST(front->alive && !driver_take(front, EVENT_QUEUE, &length));
  for (unsigned i = 0; i < 40; i++) MUST(command(front, 2 + i % 3, ready, sizeof ready, NULL, 0, NULL, 0) == 0);
  MUST(!driver_take(front, EVENT_QUEUE, &length));
}

// Every form, every feature, near and far memory: two sessions, and a restart of the rings in the second.
static void test_ways(void) {
  for (unsigned number = 0; number < WAYS; number++) {
    struct disks disks = {0};
    struct front front;
    uint8_t kept[BYTES];
    make_disks(&disks, "0:0=1M");
    front_begin(&front, &disks, way_of(number));
    front_agree(&front);
    crowd(&front);
    work(&front, kept);
    look(&front, kept);
    // The driver's reset: new rings of zeros.
    for (unsigned q = 0; q < QUEUES; q++) front_stop(&front, q);
    memset(front.memory, 0, GUEST_BYTES);
    for (unsigned q = 0; q < QUEUES; q++) front.queues[q] = (struct driver_queue){.next_wrap = true, .seen_wrap = true};
    front_agree(&front);
    look(&front, kept);
    front_end(&front);
    front_begin(&front, &disks, way_of(number));
    front_agree(&front);
    look(&front, kept);
    work(&front, kept);
    front_end(&front);
    disks_close(&disks);
  }
}

// A ring that begins where another session left it.
static void test_bases(void) {
  for (unsigned number = 0; number < WAYS; number++) {
    struct disks disks = {0};
    struct front front;
    uint8_t kept[BYTES];
    static struct sent sent[MOST_MESSAGES];
    make_disks(&disks, "0:0=1M");
    front_begin(&front, &disks, way_of(number));
    front_agree(&front);
    crowd(&front);
    work(&front, kept);
    uint32_t bases[QUEUES];
    for (unsigned q = 0; q < QUEUES; q++) bases[q] = front_stop(&front, q);
    size_t count = front_set_up(&front, sent, 0);
    uint8_t payload[MOST_PAYLOAD];
    for (size_t i = 8; i < count; i++) {
      uint8_t *at = sent[i].bytes + HEADER;
      if (little_get(sent[i].bytes, 4) == SET_VRING_BASE) little_put(at + 4, bases[little_get(at, 4)], 4);
      MUST(front_send(&front, &sent[i], 0, sent[i].length));
      pump(&front);
      MUST(front_reply(&front, payload, sizeof payload) == 8 && little_get(payload, 8) == 0);
    }
    look(&front, kept);
    front_end(&front);
    disks_close(&disks);
  }
}

// A guest that goes on behind a daemon that had its disk in memory: the session ends, also where the front end says a packed ring's first
// base once more. One whose rings are new begins.
static void test_left_behind(void) {
  static struct sent sent[MOST_MESSAGES];
  for (unsigned number = 0; number < 2 * WAYS; number++) {
    struct disks disks = {0};
    struct front front;
    uint8_t kept[BYTES], payload[MOST_PAYLOAD];
    uint32_t bases[QUEUES];
    make_disks(&disks, "0:0=1M");
    front_begin(&front, &disks, way_of(number / 2));
    front_agree(&front);
    crowd(&front);
    work(&front, kept);
    for (unsigned q = 0; q < QUEUES; q++) bases[q] = front_stop(&front, q);
    disks.is_served = false;
    front_again(&front);
    size_t count = front_set_up(&front, sent, 0);
    for (size_t i = 0; i < count && front.alive; i++) {
      uint8_t *at = sent[i].bytes + HEADER;
      bool knows = number % 2 || !front.way.packed;
      if (little_get(sent[i].bytes, 4) == SET_VRING_BASE && knows) little_put(at + 4, bases[little_get(at, 4)], 4);
      MUST(front_send(&front, &sent[i], 0, sent[i].length));
      pump(&front);
      front_reply(&front, payload, sizeof payload);
    }
    MUST(!front.alive);
    memset(front.memory, 0, GUEST_BYTES);
    for (unsigned q = 0; q < QUEUES; q++) front.queues[q] = (struct driver_queue){.next_wrap = true, .seen_wrap = true};
    front_again(&front);
    front_agree(&front);
    work(&front, kept);
    look(&front, kept);
    front_end(&front);
    disks_close(&disks);
  }
}

// Messages that are cut, go on later, or whose front end dies there.
static void test_cuts(void) {
  static struct sent sent[MOST_MESSAGES];
  struct disks disks = {0};
  make_disks(&disks, "0:0=1M");
  unsigned files = open_files();
  for (unsigned dies = 0; dies < 2; dies++) {
    size_t place = 0, count = MOST_MESSAGES;
    for (size_t whole = 0; whole < count; whole++, place = 0) {
      do {
        struct front front;
        front_begin(&front, &disks, way_of(0));
        count = front_set_up(&front, sent, 0);
        size_t cut = place < sent[whole].length ? place : sent[whole].length;
        for (size_t i = 0; i < whole; i++) MUST(front_send(&front, &sent[i], 0, sent[i].length));
        MUST(front_send(&front, &sent[whole], 0, cut));
        pump(&front);
        MUST(front.alive);
        if (!dies) {
          MUST(front_send(&front, &sent[whole], cut, sent[whole].length));
          pump(&front);
          MUST(front.alive);
        }
        front_end(&front);
        place++;
      } while (place <= sent[whole].length);
    }
  }
  MUST(open_files() == files);
  disks_close(&disks);
}

// Messages whose fields are anything. The session ends or stands; nothing else happens.
static void test_fields(void) {
  static const uint64_t numbers[] = {0, 1, 2, 256, 1025, 0x80000000, UINT32_MAX};
  static struct sent sent[MOST_MESSAGES];
  struct disks disks = {0};
  make_disks(&disks, "0:0=1M");
  unsigned files = open_files();
  size_t count = MOST_MESSAGES;
  for (size_t which = 0; which < count; which++) {
    for (size_t field = 0; field < HEADER + 72; field += 4) {
      for (size_t n = 0; n < sizeof numbers / sizeof *numbers; n++) {
        struct front front;
        front_begin(&front, &disks, way_of((unsigned)n));
        count = front_set_up(&front, sent, 0);
        if (which >= count || field >= sent[which].length) {
          front_end(&front);
          break;
        }
        little_put(sent[which].bytes + field, numbers[n], 4);
        // The last queue's messages come after all others have been taken.
        for (size_t i = 0; i < count; i++) front_send(&front, &sent[i], 0, sent[i].length);
        pump(&front);
        if (front.alive && front.session.backend.queues[2].ready) {
          driver_put(&front, 2, &(struct part){0x300000, 108, true}, 1);
          driver_kick(&front, 2);
          pump(&front);
        }
        front_end(&front);
      }
    }
  }
  MUST(open_files() == files);
  disks_close(&disks);
}

// Descriptors and indices that are anything, whole rings of them too.
static void test_rings(void) {
  struct disks disks = {0};
  unsigned ended = 0, broke = 0, stood = 0;
  make_disks(&disks, "0:0=1M");
  unsigned files = open_files();
  srand(7);
  for (unsigned number = 0; number < CHANGES; number++) {
    struct front front;
    front_begin(&front, &disks, way_of(number % WAYS));
    front_agree(&front);
    MUST(command(&front, 2, ready, sizeof ready, NULL, 0, NULL, 0) == 0);
    const struct part parts[] = {{0x202000, 51, false}, {0x202400, 108, true}, {0x203000, 512, true}};
    for (unsigned i = 0; i < 3; i++) driver_put(&front, 2 + number % 2, parts, 3);
    unsigned changes = 1 + (unsigned)rand() % 4;
    for (unsigned i = 0; i < changes; i++) {
      static const uint64_t places[] = {0, 1, 15, 16, 0xffff, 0x7fff, HALF - 1, GUEST_BYTES - 4, GUEST_BYTES, 0x10000000, UINT32_MAX, UINT64_MAX - 8};
      uint64_t area = place_of(2 + number % 2, (unsigned)rand() % 2);
      if (front.way.indirect && rand() % 2) area = 0x180000 + 0x10000 * (uint64_t)(2 + number % 2);
      uint64_t at = area + (unsigned)rand() % 128 * 2;
      if (rand() % 3) little_put(front.memory + at, places[(unsigned)rand() % 12], rand() % 2 ? 2 : 8);
      else little_put(front.memory + at, (uint64_t)rand(), 4);
    }
    for (unsigned q = 0; q < QUEUES; q++) MUST(write(front.kick[q], &(uint64_t){1}, 8) == 8);
    pump(&front);
    bool is_broken = front.alive && (front.session.backend.queues[2].fault || front.session.backend.queues[3].fault);
    ended += !front.alive;
    broke += is_broken;
    stood += front.alive && !is_broken;
    // Other queues go on.
    if (front.alive) MUST(command(&front, 4, ready, sizeof ready, NULL, 0, NULL, 0) == 0);
    front_end(&front);
  }
  MUST(open_files() == files);
  MUST(broke > CHANGES / 20 && stood > CHANGES / 20);
  printf("rings: %u broke a queue, %u ended the session, %u stood\n", broke, ended, stood);
  disks_close(&disks);
}

// A disk on a file: another daemon finds it, and one that has a snapshot leaves the file alone.
static void test_files(void) {
  char path[] = "/tmp/vscsi-disk-XXXXXX", words[100], why[200];
  uint8_t kept[BYTES], other[BYTES], found[BYTES];
  close(mkstemp(path));
  for (unsigned turn = 0; turn < 4; turn++) {
    struct disks disks = {0};
    struct front front;
    snprintf(words, sizeof words, "0:0=1M,file=%s%s", path, turn == 2 ? ",snapshot" : turn ? "" : ",grow");
    make_disks(&disks, words);
    struct disks second = {0};
    if (turn == 0) MUST(disks_add(&second, words, why, sizeof why) && !images_open(&second, why, sizeof why));
    disks_close(&second);
    front_begin(&front, &disks, way_of(turn));
    front_agree(&front);
    if (turn) look(&front, kept);
    if (turn != 2) work(&front, kept);
    else work(&front, other);
    front_end(&front);
    int file = open(path, O_RDONLY | O_CLOEXEC);
    MUST(pread(file, found, BYTES, 3 * 512) == BYTES && !memcmp(found, kept, BYTES));
    close(file);
    disks_close(&disks);
  }
  unlink(path);
}

static void test_words(void) {
  static const char *const wrong[] = {"", "0", "0:0", "0:0=", "0:0=0", "0:0=513", "0:0=1M,", "0:0=1M,rw", "256:0=1M", "0:16384=1M", "0:0=1P",
                                      "0:0=9999999999999999999999", "0:0=1M,file=", "-1:0=1M", "0:0=1025T", "0:0=1M,ro", "0:0=1M,ro,file=x",
                                      "0:0=1M,snapshot", "0:0=1M,grow", "0:0=1M,file=x,grow,snapshot", "0:0=file=", "0:0=file=x,grow",
                                      "0:0=file=x,1M", "0:0=1M,file=x,file=y", "0:0=snapshot", "0:0=1M,file=x,", "0:0=1M,file=x,,,",
                                      "0:0=1M,profile=", "0:0=1M,profile=broad", "0:0=1M,profile=widest", "0:0=profile=wide", "0:0=1M,profile=wide,profile=narrow",
                                      "0:0=1M,profile=narrow,profile=wide", "0:0=1M,profile=narrow,profile=narrow",
                                      "0:0=1M,profile=narrow,serial=S", "0:0=1M,profile=narrow,naa=3000000000000001",
                                      "0:0=1M,serial=S,profile=narrow", "0:0=1M,serial=",
                                      "0:0=1M,serial=ABCDEFGHIJKLMNOPQRSTU", "0:0=1M,profile=wide,serial=S,serial=T",
                                      "0:0=1M,profile=wide,vendor=ABCDEFGHI", "0:0=1M,profile=wide,vendor=A\tB",
                                      "0:0=1M,profile=wide,product=ABCDEFGHIJKLMNOPQ", "0:0=1M,profile=wide,revision=1.0.0",
                                      "0:0=1M,profile=wide,naa=300000000000000", "0:0=1M,profile=wide,naa=30000000000000001",
                                      "0:0=1M,profile=wide,naa=300000000000000g", "0:0=1M,profile=wide,naa=6000000000000001",
                                      "0:0=1M,profile=wide,naa=0000000000000000", "0:0=1M,profile=wide,physical-block-exp=16",
                                      "0:0=1M,profile=wide,physical-block-exp=", "0:0=1M,profile=wide,rotation-rate=2",
                                      "0:0=1M,profile=wide,rotation-rate=1024", "0:0=1M,profile=wide,rotation-rate=65535",
                                      "0:0=1M,profile=wide,rotation-rate=-1", "0:0=1M,profile=wide,sense=", "0:0=1M,profile=wide,sense=fix",
                                      "0:0=1M,profile=wide,sense=descriptors", "0:0=1M,profile=narrow,sense=descriptor",
                                      "0:0=1M,profile=wide,sense=fixed,sense=descriptor",
                                      "0:0=1M,read-only=on", "0:0=1M,file=x,read-only=maybe", "0:0=1M,file=x,read-only=on,read-only=on",
                                      "0:0=1M,file=x,read-only=on,snapshot", "0:0=1M,file=x,grow,read-only=on",
                                      "0:0=1M,file=x,profile=narrow,read-only=on", "0:0=1M,file=x,read-only=on,read-only=off"};
  static const char *const refused[] = {"0:0=1M,file=/", "0:0=1M,file=/nowhere/x", "0:0=file=/nowhere/x", "0:0=1M,file=/nowhere/x,snapshot",
                                        "0:0=1M,file=/nowhere/x,read-only=on"};
  char why[300];
  struct disks disks = {0};
  for (size_t i = 0; i < sizeof wrong / sizeof *wrong; i++) MUST(!disks_add(&disks, wrong[i], why, sizeof why) && *why);
  MUST(!disks_are_whole(&disks));
  for (size_t i = 0; i < sizeof refused / sizeof *refused; i++) {
    *why = 0;
    MUST(disks_add(&disks, refused[i], why, sizeof why) && disks_are_whole(&disks));
    MUST(!(images_open(&disks, why, sizeof why) && images_make(&disks, (uid_t)-1, (gid_t)-1, why, sizeof why)) && *why);
    images_undo(&disks);
    disks_close(&disks);
  }
  MUST(disks_add(&disks, "0:0=1M,snapshot,file=a,,b,,,,c", why, sizeof why) && !strcmp(disks.disks[0].path, "a,b,,c") && disks.disks[0].read_only);
  disks_close(&disks);
  MUST(disks_add(&disks, "0:0=file=a,read-only=on", why, sizeof why) && disks.disks[0].read_only && disks.disks[0].is_protected);
  MUST(disks_add(&disks, "0:1=1M,file=b,read-only=off", why, sizeof why) && !disks.disks[1].read_only && !disks.disks[1].is_protected);
  MUST(disks_add(&disks, "0:2=1M,file=c,snapshot", why, sizeof why) && disks.disks[2].read_only && !disks.disks[2].is_protected);
  disks_close(&disks);
  MUST(disks_add(&disks, "0:0=1M,profile=wide", why, sizeof why) && disks.disks[0].wide);
  MUST(disks_add(&disks, "0:1=1M,profile=narrow", why, sizeof why) && !disks.disks[1].wide);
  MUST(disks_add(&disks, "0:2=1M", why, sizeof why) && disks.disks[2].wide && !disks.disks[2].named);
  disks_close(&disks);
  MUST(disks_add(&disks, "0:0=1M,naa=3123456789abcDEF,serial=A B,physical-block-exp=3,rotation-rate=0,vendor=V", why, sizeof why));
  const struct vscsi_identity *names = &disks.disks[0].names;
  MUST(!memcmp(names->naa, "\x31\x23\x45\x67\x89\xab\xcd\xef", 8) && !strcmp(names->serial, "A B") && !strcmp(names->vendor, "V"));
  MUST(names->physical_exponent == 3 && names->rotation_rate == VSCSI_RATE_NOT_REPORTED && !*names->product && !*names->revision);
  MUST(!disks_add(&disks, "0:1=1M,naa=3123456789abcdef", why, sizeof why) && strstr(why, "another disk"));
  MUST(disks_add(&disks, "0:1=1M,profile=wide,rotation-rate=65534", why, sizeof why) && disks.disks[1].names.rotation_rate == 65534);
  MUST(disks.disks[1].names.sense_format == VSCSI_SENSE_FIXED);
  MUST(disks_add(&disks, "0:2=1M,sense=descriptor,profile=wide", why, sizeof why) && disks.disks[2].names.sense_format == VSCSI_SENSE_DESCRIPTOR);
  MUST(disks_add(&disks, "0:3=1M,profile=wide,sense=fixed", why, sizeof why) && disks.disks[3].names.sense_format == VSCSI_SENSE_FIXED);
  disks_close(&disks);
  MUST(disks_add(&disks, "1:1=512", why, sizeof why) && !disks_are_whole(&disks) && !disks_add(&disks, "1:1=512", why, sizeof why));
  MUST(disks_add(&disks, "1:0=4G", why, sizeof why) && disks_are_whole(&disks) && disks.disks[0].lun == 0 && disks.disks[0].blocks == 4 << 21);
  disks_close(&disks);
}

// Runs all tests, or the one that is named.
int main(int count, char **words) {
  static const struct {
    const char *name;
    void (*run)(void);
  } tests[] = {{"words", test_words}, {"ways", test_ways}, {"bases", test_bases}, {"left behind", test_left_behind}, {"files", test_files}, {"events", test_events},
               {"totals", test_totals}, {"holes", test_holes}, {"order", test_order}, {"tables", test_tables},
               {"shared", test_shared}, {"cuts", test_cuts}, {"fields", test_fields}, {"rings", test_rings},
               {"scattered", test_scattered}, {"slow", test_slow}, {"full", test_full}, {"crowded", test_crowded},
               {"forgetful", test_forgetful},
               {"abandoned", test_abandoned}, {"unloaded", test_unloaded}, {"zeros", test_zeros}, {"formatted", test_formatted},
               {"turns", test_turns}, {"order of control", test_order_of_control},
               {"costs", test_costs},
               {"stops", test_stops}, {"enabled", test_enabled}, {"held", test_held}, {"stopped", test_stopped}, {"unasked", test_unasked}, {"killed", test_killed}, {"waiting", test_waiting},
               {"moved", test_moved}, {"slots", test_slots}, {"torn", test_torn}, {"regions", test_regions}, {"short", test_short},
               {"forms", test_forms}, {"stale", test_stale}, {"kicks", test_kicks}, {"pipes", test_pipes}, {"called", test_called},
               {"waits", test_waits}, {"reset", test_reset},
               {"refused", test_refused}, {"endless", test_endless}, {"polls", test_polls}, {"windows", test_windows}, {"disabled", test_disabled}, {"replaced", test_replaced}, {"late", test_late}, {"interrupted", test_interrupted},
               {"backed", test_backed}, {"backed ends", test_backed_ends}, {"backed zeros", test_backed_zeros},
               {"backed unread", test_backed_unread}, {"backed lost", test_backed_lost}, {"backed unwritten", test_backed_unwritten}, {"backed denied", test_backed_denied}, {"backed left", test_backed_left},
               {"backed stops", test_backed_stops}, {"backed stale", test_backed_stale}, {"backed beside", test_backed_beside},
               {"backed ahead", test_backed_ahead}, {"backed woken", test_backed_woken},
               {"backed anything", test_backed_anything},
               {"status", test_status}, {"logged", test_logged}, {"logged elsewhere", test_logged_elsewhere},
               {"logs change", test_logs_change}, {"logged behind", test_logged_behind}, {"wrong logs", test_wrong_logs}};
  unsigned files = open_files();
  for (size_t i = 0; i < sizeof tests / sizeof *tests; i++) {
    if (count > 1 && strcmp(words[1], tests[i].name)) continue;
    tests[i].run();
    MUST(open_files() == files);
    printf("%s: passed\n", tests[i].name);
    fflush(stdout);
  }
  return 0;
}

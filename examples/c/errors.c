// What each call answers where it can't do what it was asked for, and that it then left the rest alone.
#include <stddef.h>

#define EXAMPLE "errors"
#include "guest.h"

enum { PAGES = MEMORY / VSCSI_PAGE };

static unsigned tests;

// One test, by its line.
#define IS(found, wanted) check(__LINE__, (long long)(found), (long long)(wanted))

static void check(int line, long long found, long long wanted) {
  tests++;
  if (found == wanted) return;
  fprintf(stderr, "errors.c:%d: %lld, not %lld\n", line, found, wanted);
  exit(1);
}

static struct vscsi_queue queues[QUEUES];
static struct vscsi_unit units[2];
static const uint8_t profiles[2] = {VSCSI_PROFILE_WIDE, VSCSI_PROFILE_WIDE + 1};
static const uint8_t wide[2] = {VSCSI_PROFILE_WIDE, VSCSI_PROFILE_WIDE};
static struct vscsi_identity identities[2];
static bool read_only[2];
static struct vscsi_config config;

// A configuration that the device takes.
static void begin(void) {
  memcpy(queues, layout, sizeof queues);
  units[0] = (struct vscsi_unit){.blocks = 1000, .calm = 1};
  units[1] = (struct vscsi_unit){.blocks = 1, .target = 4};
  config = config_of(units, 2);
  config.queues = queues;
}

// That the configuration as it is now is refused for this cause.
static void refused(int line, uint32_t cause, uint64_t place, uint32_t detail) {
  struct vscsi device = {0};
  struct vscsi_fault fault = {77, 77, 77};
  check(line, vscsi_create(&device, &config, &fault), VSCSI_BAD_CONFIG);
  check(line, fault.cause, cause);
  check(line, (long long)fault.place, (long long)place);
  check(line, fault.detail, detail);
  check(line, vscsi_destroy(&device), VSCSI_NO_DEVICE);
  begin();
}

static void causes(void) {
  begin();
  config.pages = 0, refused(__LINE__, VSCSI_CAUSE_PAGES, 0, 0);
  config.pages = 65537, refused(__LINE__, VSCSI_CAUSE_PAGES, 0, 0);
  config.features = VSCSI_F_RING_PACKED, refused(__LINE__, VSCSI_CAUSE_FEATURES, 0, 0);
  config.features = VSCSI_FEATURES | 1, refused(__LINE__, VSCSI_CAUSE_FEATURES, 0, 0);
  config.features = VSCSI_ACCEPTED_FEATURES | UINT64_C(1) << 30, refused(__LINE__, VSCSI_CAUSE_FEATURES, 0, 0);
  config.features = VSCSI_F_INDIRECT_DESC | VSCSI_F_EVENT_IDX, refused(__LINE__, VSCSI_CAUSE_FEATURES, 0, 0);
  config.queue_count = 2, refused(__LINE__, VSCSI_CAUSE_QUEUE_COUNT, 0, 0);
  config.queues = 0, config.queue_count = 0, refused(__LINE__, VSCSI_CAUSE_QUEUE_COUNT, 0, 0);
  queues[1].size = 1, queues[2].size = 1, refused(__LINE__, VSCSI_CAUSE_QUEUE_SIZE, 1, 0);
  queues[2].size = 2048, refused(__LINE__, VSCSI_CAUSE_QUEUE_SIZE, 2, 0);
  queues[0].size = 6, refused(__LINE__, VSCSI_CAUSE_QUEUE_LAYOUT, 0, VSCSI_LAYOUT_SIZE);
  queues[1].desc += 8, refused(__LINE__, VSCSI_CAUSE_QUEUE_LAYOUT, 1, VSCSI_LAYOUT_ALIGNMENT);
  queues[2].device = PAGES * VSCSI_PAGE - 64, refused(__LINE__, VSCSI_CAUSE_QUEUE_LAYOUT, 2, VSCSI_LAYOUT_AREA);
  config.unit_count = 0, refused(__LINE__, VSCSI_CAUSE_UNIT_COUNT, 0, 0);
  units[1].lun = 16384, refused(__LINE__, VSCSI_CAUSE_UNIT_LUN, 1, 0);
  units[0].blocks = 0, units[1].blocks = 0, refused(__LINE__, VSCSI_CAUSE_UNIT_BLOCKS, 0, 0);
  units[1].blocks = VSCSI_MOST_BLOCKS + 1, refused(__LINE__, VSCSI_CAUSE_UNIT_BLOCKS, 1, 0);
  units[1].target = 0, refused(__LINE__, VSCSI_CAUSE_UNIT_ORDER, 1, 0);
  units[1].lun = 1, refused(__LINE__, VSCSI_CAUSE_NO_LUN_0, 1, 0);
  config.profiles = profiles, config.pages = 0, refused(__LINE__, VSCSI_CAUSE_UNIT_PROFILE, 1, 0);
}

// That the second unit may not say this of itself, whatever its profile.
static void unnamed(int line, struct vscsi_identity said) {
  identities[0] = (struct vscsi_identity){.sense_format = VSCSI_SENSE_FIXED};
  identities[1] = said;
  config.profiles = wide, config.identities = identities, refused(line, VSCSI_CAUSE_UNIT_IDENTITY, 1, 0);
  config.identities = identities, refused(line, VSCSI_CAUSE_UNIT_IDENTITY, 1, 0);
}

// That names are refused by their own causes: of units, and behind what is wrong otherwise.
static void names(void) {
  static const struct vscsi_identity two[2] = {{.naa = {0x30, [7] = 1}}, {.naa = {0x30, [7] = 1}}};
  begin();
  unnamed(__LINE__, (struct vscsi_identity){.vendor = "A\tB"});
  unnamed(__LINE__, (struct vscsi_identity){.product = "\x80"});
  unnamed(__LINE__, (struct vscsi_identity){.revision = {1, 0, 0, 0}});
  unnamed(__LINE__, (struct vscsi_identity){.serial = "\x7f"});
  unnamed(__LINE__, (struct vscsi_identity){.naa = {0x60, 1}});
  unnamed(__LINE__, (struct vscsi_identity){.naa = {0, 1}});
  unnamed(__LINE__, (struct vscsi_identity){.physical_exponent = 16});
  unnamed(__LINE__, (struct vscsi_identity){.rotation_rate = 2});
  unnamed(__LINE__, (struct vscsi_identity){.rotation_rate = 0x400});
  unnamed(__LINE__, (struct vscsi_identity){.sense_format = 2});
  config.profiles = wide, config.identities = two, refused(__LINE__, VSCSI_CAUSE_UNIT_NAA, 0, 0);
  units[1].lun = 1, config.profiles = wide, config.identities = two, refused(__LINE__, VSCSI_CAUSE_NO_LUN_0, 1, 0);
}

// Has a guest's command of a target served, with room for 255 bytes of data. Returns the head of its response.
static struct response asks(struct guest *guest, uint8_t target, const uint8_t *block) {
  request(guest, target, block, 6, 0, 255);
  IS(vscsi_serve(guest->device, 1u << 2, UINT64_MAX, 0, 0), VSCSI_DONE);
  IS(response_of(guest).response, 0);
  return response_of(guest);
}

// That a unit tells its page as these bytes.
static void tells(int line, struct guest *guest, uint8_t target, uint8_t page, const void *wanted, uint32_t size) {
  uint8_t found[255];
  struct response response = asks(guest, target, (uint8_t[]){0x12, 1, page, 0, 0xff, 0});
  check(line, response.status, 0);
  check(line, 255 - response.residual, size);
  load(guest, IN_AT, found, size);
  check(line, memcmp(found, wanted, size), 0);
}

// That each unit tells its own names (SPC-4 7.8.6, 7.8.15), and one without any those that the device makes.
static void each_name(void) {
  static const uint8_t serial[] = "\x00\x80\x00\x06S3R14L", made[] = "\x00\x80\x00\x0dVSCSI00400000";
  static const uint8_t designators[] =
      "\x00\x83\x00\x1e\x02\x01\x00\x0e"
      "ACME    S3R14L\x01\x03\x00\x08\x50\x00\xc5\x00\xa1\xb2\xc3\xd4";
  struct vscsi device = {0};
  struct guest guest = {.device = &device};
  begin(), units[1].calm = 1, config.profiles = wide, config.identities = identities;
  identities[0] = (struct vscsi_identity){.vendor = "ACME", .serial = "S3R14L", .naa = {0x50, 0, 0xc5, 0, 0xa1, 0xb2, 0xc3, 0xd4}};
  identities[1] = (struct vscsi_identity){.rotation_rate = VSCSI_RATE_NOT_REPORTED};
  IS(vscsi_create(&device, &config, 0), VSCSI_DONE);
  tells(__LINE__, &guest, 0, 0x80, serial, sizeof serial - 1);
  tells(__LINE__, &guest, 0, 0x83, designators, sizeof designators - 1);
  tells(__LINE__, &guest, 4, 0x80, made, sizeof made - 1);
  uint8_t rates[64] = {0, 0xb1, 0, 0x3c};
  tells(__LINE__, &guest, 4, 0xb1, rates, sizeof rates);
  rates[5] = 1;
  tells(__LINE__, &guest, 0, 0xb1, rates, sizeof rates);
  IS(vscsi_destroy(&device), VSCSI_DONE);
  begin();
}

// That a target refuses an opcode that no unit knows with this sense data, and zeros behind it.
static void refuses(int line, struct guest *guest, uint8_t target, const uint8_t *sense, uint8_t length) {
  uint8_t wanted[RESPONSE] = {length, [4] = 255, [10] = 2}, found[RESPONSE];
  memcpy(wanted + 12, sense, length);
  asks(guest, target, (uint8_t[6]){0xc0});
  load(guest, RESPONSE_AT, found, sizeof found);
  check(line, memcmp(found, wanted, sizeof wanted), 0);
}

// That each unit sends sense data in its own format (SPC-4 4.5.2, 4.5.3), and that there is no third one.
static void each_format(void) {
  static const uint8_t fixed[18] = {0x70, 0, 5, [7] = 10, [12] = 0x20}, descriptor[8] = {0x72, 5, 0x20};
  struct vscsi device = {0};
  struct guest guest = {.device = &device};
  begin(), units[1].calm = 1, config.profiles = wide, config.identities = identities;
  identities[0] = (struct vscsi_identity){.sense_format = VSCSI_SENSE_FIXED};
  identities[1] = (struct vscsi_identity){.sense_format = VSCSI_SENSE_DESCRIPTOR};
  IS(vscsi_create(&device, &config, 0), VSCSI_DONE);
  refuses(__LINE__, &guest, 0, fixed, sizeof fixed);
  refuses(__LINE__, &guest, 4, descriptor, sizeof descriptor);
  refuses(__LINE__, &guest, 0, fixed, sizeof fixed);
  IS(vscsi_destroy(&device), VSCSI_DONE);
  config.profiles = 0, refused(__LINE__, VSCSI_CAUSE_UNIT_IDENTITY, 1, 0);
}

// That a read-only unit tells WP (SBC-3 6.5.1) and refuses FORMAT UNIT (4.12), a unit beside it doesn't, and a narrow one can't be so.
static void each_access(void) {
  static const uint8_t mode_sense[6] = {0x1a, 8, 8, 0, 4}, format[6] = {4}, protected[14] = {0x70, 0, 7, [7] = 10, [12] = 0x27};
  struct vscsi device = {0};
  struct guest guest = {.device = &device};
  uint8_t found[RESPONSE], header[4];
  begin(), units[1].calm = 1, config.profiles = wide, config.read_only = read_only;
  read_only[0] = false, read_only[1] = true;
  IS(vscsi_create(&device, &config, 0), VSCSI_DONE);
  IS(asks(&guest, 0, mode_sense).status, 0);
  load(&guest, IN_AT, header, sizeof header);
  IS(header[2], 0x10);
  IS(asks(&guest, 4, mode_sense).status, 0);
  load(&guest, IN_AT, header, sizeof header);
  IS(header[2], 0x90);
  IS(asks(&guest, 0, format).status, 0);
  IS(asks(&guest, 4, format).status, 2);
  load(&guest, RESPONSE_AT, found, sizeof found);
  IS(memcmp(found + 12, protected, sizeof protected), 0);
  IS(vscsi_destroy(&device), VSCSI_DONE);
  config.profiles = 0, refused(__LINE__, VSCSI_CAUSE_UNIT_IDENTITY, 1, 0);
}

// That each unit has the commands of its profile: MODE SENSE is one of the wide profile alone.
static void each_profile(void) {
  static const uint8_t wide_second[2] = {VSCSI_PROFILE_NARROW, VSCSI_PROFILE_WIDE}, mode_sense[6] = {0x1a, 0, 0x3f, 0, 0xff};
  struct vscsi device = {0};
  struct vscsi_disk disks[2] = {{0}, {0}};
  for (int over = 0; over < 2; over++) {
    struct guest guest = {.device = &device};
    begin(), units[1].calm = 1, config.profiles = wide_second;
    if (over) {
      for (unsigned k = 0; k < 2; k++) IS(vscsi_disk_create(&disks[k], units[k].blocks), VSCSI_DONE);
      IS(vscsi_create_with(&device, &config, disks, 0), VSCSI_DONE);
    } else {
      IS(vscsi_create(&device, &config, 0), VSCSI_DONE);
    }
    IS(asks(&guest, 0, mode_sense).status, 2);
    IS(asks(&guest, 4, mode_sense).status, 0);
    IS(vscsi_destroy(&device), VSCSI_DONE);
  }
  begin();
}

// That a configuration of a header that had no profiles or no names yet is taken, whatever stands behind it.
static void older(void) {
  struct vscsi device = {0};
  begin();
  identities[0] = (struct vscsi_identity){.sense_format = 2};
  config.identities = identities, config.size = offsetof(struct vscsi_config, identities);
  IS(vscsi_create(&device, &config, 0), VSCSI_DONE);
  IS(vscsi_destroy(&device), VSCSI_DONE);
  config.profiles = profiles;
  IS(vscsi_create(&device, &config, 0), VSCSI_BAD_CONFIG);
  begin();
  read_only[1] = true;
  config.read_only = read_only, config.size = offsetof(struct vscsi_config, read_only);
  IS(vscsi_create(&device, &config, 0), VSCSI_DONE);
  IS(vscsi_destroy(&device), VSCSI_DONE);
  identities[0] = (struct vscsi_identity){.sense_format = 2};
  config.identities = identities;
  IS(vscsi_create(&device, &config, 0), VSCSI_BAD_CONFIG);
  begin();
  config.profiles = profiles, config.size = offsetof(struct vscsi_config, profiles);
  IS(vscsi_create(&device, &config, 0), VSCSI_DONE);
  IS(vscsi_destroy(&device), VSCSI_DONE);
  config.size -= 1;
  IS(vscsi_create(&device, &config, 0), VSCSI_BAD_LENGTH);
  begin();
}

// The same of live memory, where `asks` came first.
static void older_live(void) {
  static const size_t older_sizes[] = {offsetof(struct vscsi_live_config, asks), offsetof(struct vscsi_live_config, profiles)};
  struct vscsi_live device = {0};
  struct vscsi_ring rings[QUEUES] = {0};
  struct vscsi_fault fault = {0};
  begin();
  struct vscsi_live_config live = live_config_of(units, 2, rings, 0);
  live.profiles = profiles;
  for (unsigned i = 0; i < 2; i++) {
    live.size = older_sizes[i];
    IS(vscsi_live_create(&device, &live, 0, 0), VSCSI_DONE);
    IS(vscsi_live_destroy(&device), VSCSI_DONE);
  }
  live.size = offsetof(struct vscsi_live_config, identities);
  IS(vscsi_live_create(&device, &live, 0, &fault), VSCSI_BAD_CONFIG);
  live.profiles = wide;
  identities[0] = (struct vscsi_identity){.sense_format = 2};
  live.identities = identities;
  IS(vscsi_live_create(&device, &live, 0, 0), VSCSI_DONE);
  IS(vscsi_live_destroy(&device), VSCSI_DONE);
  live.size = offsetof(struct vscsi_live_config, read_only);
  IS(vscsi_live_create(&device, &live, 0, &fault), VSCSI_BAD_CONFIG);
  IS(fault.cause, VSCSI_CAUSE_UNIT_IDENTITY);
  IS(fault.place, 0);
  live.size = offsetof(struct vscsi_live_config, write_through);
  IS(vscsi_live_create(&device, &live, 0, &fault), VSCSI_BAD_CONFIG);
  IS(fault.cause, VSCSI_CAUSE_UNIT_IDENTITY);
  live.size -= 1;
  IS(vscsi_live_create(&device, &live, 0, &fault), VSCSI_BAD_LENGTH);
  live.size = sizeof live;
  IS(vscsi_live_create(&device, &live, 0, &fault), VSCSI_BAD_CONFIG);
  IS(fault.cause, VSCSI_CAUSE_UNIT_IDENTITY);
  IS(fault.place, 0);
  live.profiles = profiles;
  IS(vscsi_live_create(&device, &live, 0, &fault), VSCSI_BAD_CONFIG);
  IS(fault.cause, VSCSI_CAUSE_UNIT_PROFILE);
  IS(fault.place, 1);
}

static void nulls(void) {
  struct vscsi device = {0};
  struct vscsi_live live = {0};
  struct vscsi_position position = {.used = 5};
  struct vscsi_disk disk = {0};
  struct vscsi_range ranges[VSCSI_MOST_RANGES];
  struct vscsi_counts counts = {.left = 5};
  struct vscsi_fault fault;
  size_t count = 5;
  uint64_t n = 5;
  uint32_t bits = 5;
  uint8_t byte = 5;
  bool more = true;
  begin();
  IS(vscsi_create(0, &config, &fault), VSCSI_NULL);
  IS(vscsi_create(&device, 0, &fault), VSCSI_NULL);
  config.queues = 0, IS(vscsi_create(&device, &config, &fault), VSCSI_NULL);
  begin(), config.units = 0, IS(vscsi_create(&device, &config, &fault), VSCSI_NULL);
  begin(), config.unit_count = (size_t)-1, IS(vscsi_create(&device, &config, &fault), VSCSI_BAD_LENGTH);
  IS(vscsi_destroy(0), VSCSI_NULL);
  IS(vscsi_settle(0, &n), VSCSI_NULL);
  IS(vscsi_serve(0, 7, 1, &n, &more), VSCSI_NULL);
  IS(vscsi_poke(0, 0, &byte, 1), VSCSI_NULL);
  IS(vscsi_poke(&device, 0, 0, 1), VSCSI_NULL);
  IS(vscsi_peek(0, 0, &byte, 1), VSCSI_NULL);
  IS(vscsi_peek(&device, 0, 0, 1), VSCSI_NULL);
  IS(vscsi_owed(0, &bits), VSCSI_NULL);
  IS(vscsi_owed(&device, 0), VSCSI_NULL);
  IS(vscsi_status(0, &byte), VSCSI_NULL);
  IS(vscsi_status(&device, 0), VSCSI_NULL);
  IS(vscsi_broken(0, 0, &bits), VSCSI_NULL);
  IS(vscsi_broken(&device, 0, 0), VSCSI_NULL);
  IS(vscsi_progress(0, 0, &n, &n), VSCSI_NULL);
  IS(vscsi_position(0, 0, &position), VSCSI_NULL);
  IS(vscsi_position(&device, 0, 0), VSCSI_NULL);
  IS(vscsi_live_position(0, 0, &position), VSCSI_NULL);
  IS(vscsi_live_position(&live, 0, 0), VSCSI_NULL);
  IS(position.used, 5);
  IS(vscsi_reset(0, 0, 0), VSCSI_NULL);
  IS(vscsi_resize(0, 0, 0, 1), VSCSI_NULL);
  IS(vscsi_counts(0, 0, 0, &counts, sizeof counts), VSCSI_NULL);
  IS(vscsi_counts(&device, 0, 0, 0, sizeof counts), VSCSI_NULL);
  IS(vscsi_capacity(0, 0, 0, &n), VSCSI_NULL);
  IS(vscsi_capacity(&device, 0, 0, 0), VSCSI_NULL);
  IS(vscsi_blocks(0, 0, 0, 0, 0, &byte, 0), VSCSI_NULL);
  IS(vscsi_blocks(&device, 0, 0, 0, 1, 0, 512), VSCSI_NULL);
  begin();
  IS(vscsi_create_with(0, &config, &disk, &fault), VSCSI_NULL);
  IS(vscsi_create_with(&device, 0, &disk, &fault), VSCSI_NULL);
  IS(vscsi_create_with(&device, &config, 0, &fault), VSCSI_NULL);
  IS(vscsi_close(0, &disk, 1), VSCSI_NULL);
  IS(vscsi_close(&device, 0, 1), VSCSI_NULL);
  IS(vscsi_changed(0, 0, 0, &n, ranges, VSCSI_MOST_RANGES, &count, &more), VSCSI_NULL);
  IS(vscsi_changed(&device, 0, 0, 0, ranges, VSCSI_MOST_RANGES, &count, &more), VSCSI_NULL);
  IS(vscsi_changed(&device, 0, 0, &n, 0, VSCSI_MOST_RANGES, &count, &more), VSCSI_NULL);
  IS(vscsi_changed(&device, 0, 0, &n, ranges, VSCSI_MOST_RANGES, 0, &more), VSCSI_NULL);
  IS(vscsi_changed(&device, 0, 0, &n, ranges, VSCSI_MOST_RANGES, &count, 0), VSCSI_NULL);
  IS(vscsi_disk_create(0, 1), VSCSI_NULL);
  IS(vscsi_disk_destroy(0), VSCSI_NULL);
  IS(vscsi_disk_blocks(0, &n), VSCSI_NULL);
  IS(vscsi_disk_blocks(&disk, 0), VSCSI_NULL);
  IS(vscsi_disk_load(0, 0, 0, &byte, 0), VSCSI_NULL);
  IS(vscsi_disk_load(&disk, 0, 1, 0, 512), VSCSI_NULL);
  IS(vscsi_disk_save(0, 0, 0, &byte, 0), VSCSI_NULL);
  IS(vscsi_disk_save(&disk, 0, 1, 0, 512), VSCSI_NULL);
  IS(count, 5);
  IS(n, 5);
  IS(bits, 5);
  IS(byte, 5);
  IS(more, true);
}

static void no_device(void) {
  struct vscsi device = {0};
  struct vscsi_live live = {0};
  struct vscsi_position position = {.used = 5};
  struct vscsi_disk disk = {0};
  struct vscsi_range ranges[VSCSI_MOST_RANGES];
  struct vscsi_counts counts = {.left = 5};
  size_t count = 5;
  uint64_t n = 5;
  uint32_t bits = 5;
  uint8_t bytes[512] = {5};
  bool more = true;
  IS(vscsi_destroy(&device), VSCSI_NO_DEVICE);
  IS(vscsi_settle(&device, &n), VSCSI_NO_DEVICE);
  IS(vscsi_settle(&device, 0), VSCSI_NO_DEVICE);
  IS(vscsi_serve(&device, 7, 1, &n, &more), VSCSI_NO_DEVICE);
  IS(vscsi_serve(&device, 7, 1, 0, 0), VSCSI_NO_DEVICE);
  IS(vscsi_poke(&device, 0, bytes, 1), VSCSI_NO_DEVICE);
  IS(vscsi_peek(&device, 0, bytes, 1), VSCSI_NO_DEVICE);
  IS(vscsi_owed(&device, &bits), VSCSI_NO_DEVICE);
  IS(vscsi_status(&device, bytes), VSCSI_NO_DEVICE);
  IS(vscsi_broken(&device, 0, &bits), VSCSI_NO_DEVICE);
  IS(vscsi_progress(&device, 0, &n, &n), VSCSI_NO_DEVICE);
  IS(vscsi_progress(&device, 0, 0, 0), VSCSI_NO_DEVICE);
  IS(vscsi_position(&device, 0, &position), VSCSI_NO_DEVICE);
  IS(vscsi_live_position(&live, 0, &position), VSCSI_NO_DEVICE);
  IS(position.used, 5);
  IS(vscsi_reset(&device, 0, 0), VSCSI_NO_DEVICE);
  IS(vscsi_resize(&device, 0, 0, 0), VSCSI_NO_DEVICE);
  IS(vscsi_counts(&device, 0, 0, &counts, sizeof counts - 1), VSCSI_BAD_LENGTH);
  IS(vscsi_counts(&device, 0, 0, &counts, sizeof counts), VSCSI_NO_DEVICE);
  IS(counts.left, 5);
  IS(vscsi_capacity(&device, 0, 0, &n), VSCSI_NO_DEVICE);
  IS(vscsi_blocks(&device, 0, 0, 0, 1, bytes, 512), VSCSI_NO_DEVICE);
  IS(vscsi_close(&device, &disk, 1), VSCSI_NO_DEVICE);
  IS(vscsi_changed(&device, 0, 0, &n, ranges, VSCSI_MOST_RANGES, &count, &more), VSCSI_NO_DEVICE);
  IS(count, 5);
  IS(vscsi_disk_destroy(&disk), VSCSI_NO_DISK);
  IS(vscsi_disk_blocks(&disk, &n), VSCSI_NO_DISK);
  IS(vscsi_disk_load(&disk, 0, 1, bytes, 512), VSCSI_NO_DISK);
  IS(vscsi_disk_save(&disk, 0, 1, bytes, 512), VSCSI_NO_DISK);
  IS(n, 5);
  IS(bits, 5);
  IS(bytes[0], 5);
  IS(more, true);
}

static void calls(struct vscsi *device) {
  static uint8_t whole[PAGES * VSCSI_PAGE + 1];
  struct vscsi_fault fault;
  struct vscsi_position position = {.used = 5};
  uint64_t n = 5, used = 5;
  uint32_t bits = 5;
  uint8_t bytes[1024] = {5}, byte = 5;
  IS(vscsi_create(device, &config, &fault), VSCSI_IN_USE);
  // memory: up to its end, no further, and nowhere near the end of addresses
  IS(vscsi_poke(device, PAGES * VSCSI_PAGE - 1, "x", 1), VSCSI_DONE);
  IS(vscsi_poke(device, PAGES * VSCSI_PAGE - 1, "yz", 2), VSCSI_OUTSIDE);
  IS(vscsi_poke(device, PAGES * VSCSI_PAGE, "y", 1), VSCSI_OUTSIDE);
  IS(vscsi_poke(device, UINT64_MAX, "y", 1), VSCSI_OUTSIDE);
  IS(vscsi_poke(device, PAGES * VSCSI_PAGE, 0, 0), VSCSI_DONE);
  IS(vscsi_poke(device, 0, bytes, (size_t)-1), VSCSI_BAD_LENGTH);
  IS(vscsi_peek(device, PAGES * VSCSI_PAGE - 1, &byte, 1), VSCSI_DONE);
  IS(byte, 'x');
  IS(vscsi_peek(device, 0, whole, sizeof whole), VSCSI_OUTSIDE);
  IS(whole[0], 0);
  IS(vscsi_peek(device, UINT64_MAX, &byte, 1), VSCSI_OUTSIDE);
  IS(vscsi_peek(device, 0, 0, 0), VSCSI_DONE);
  IS(byte, 'x');
  // queues
  IS(vscsi_broken(device, QUEUES, &bits), VSCSI_NO_QUEUE);
  IS(vscsi_broken(device, 65535, &bits), VSCSI_NO_QUEUE);
  IS(bits, 5);
  IS(vscsi_progress(device, QUEUES, &n, &used), VSCSI_NO_QUEUE);
  IS(n, 5);
  IS(vscsi_progress(device, 2, &n, &used), VSCSI_DONE);
  IS(n, 0);
  IS(used, 0);
  IS(vscsi_progress(device, 2, 0, 0), VSCSI_DONE);
  IS(vscsi_progress(device, QUEUES, 0, 0), VSCSI_NO_QUEUE);
  IS(vscsi_position(device, QUEUES, &position), VSCSI_NO_QUEUE);
  IS(position.used, 5);
  IS(vscsi_position(device, 2, &position), VSCSI_DONE);
  IS(position.available + position.used + position.available_wrapped + position.used_wrapped, 0);
  // units
  struct vscsi_counts counts = {.left = 5};
  IS(vscsi_counts(device, 4, 1, &counts, sizeof counts), VSCSI_NO_UNIT);
  IS(counts.left, 5);
  IS(vscsi_counts(device, 4, 0, &counts, sizeof counts), VSCSI_DONE);
  IS(counts.left + counts.full + counts.good + counts.check_conditions + counts.busy + counts.data_out + counts.data_in, 0);
  IS(vscsi_capacity(device, 4, 0, &n), VSCSI_DONE);
  IS(n, 1);
  IS(vscsi_capacity(device, 4, 1, &n), VSCSI_NO_UNIT);
  IS(vscsi_capacity(device, 255, 65535, &n), VSCSI_NO_UNIT);
  IS(n, 1);
  IS(vscsi_reset(device, 4, 1), VSCSI_NO_UNIT);
  IS(vscsi_reset(device, 4, 0), VSCSI_DONE);
  IS(vscsi_resize(device, 4, 1, 0), VSCSI_BAD_CAPACITY);
  IS(vscsi_resize(device, 4, 0, 0), VSCSI_BAD_CAPACITY);
  IS(vscsi_resize(device, 4, 0, VSCSI_MOST_BLOCKS + 1), VSCSI_BAD_CAPACITY);
  IS(vscsi_resize(device, 4, 1, 2), VSCSI_NO_UNIT);
  IS(vscsi_capacity(device, 4, 0, &n), VSCSI_DONE);
  IS(n, 1);
  IS(vscsi_resize(device, 4, 0, VSCSI_MOST_BLOCKS), VSCSI_DONE);
  IS(vscsi_capacity(device, 4, 0, &n), VSCSI_DONE);
  IS(n, (long long)VSCSI_MOST_BLOCKS);
  IS(vscsi_resize(device, 4, 0, 1), VSCSI_DONE);
  IS(vscsi_capacity(device, 4, 0, &n), VSCSI_DONE);
  IS(n, 1);
  IS(vscsi_blocks(device, 4, 0, 0, 1, bytes, 512), VSCSI_DONE);
  IS(bytes[0], 0);
  IS(vscsi_blocks(device, 4, 0, 1, 0, 0, 0), VSCSI_DONE);
  bytes[0] = 5;
  IS(vscsi_blocks(device, 4, 0, 0, 2, bytes, 1024), VSCSI_OUTSIDE);
  IS(vscsi_blocks(device, 4, 0, UINT64_MAX, 1, bytes, 512), VSCSI_OUTSIDE);
  IS(vscsi_blocks(device, 4, 0, 0, 1, bytes, 511), VSCSI_BAD_LENGTH);
  IS(vscsi_blocks(device, 4, 0, 0, UINT32_MAX, bytes, 512), VSCSI_BAD_LENGTH);
  IS(vscsi_blocks(device, 3, 0, 0, 1, bytes, 512), VSCSI_NO_UNIT);
  IS(bytes[0], 5);
}

// A guest breaks a queue, and the others go on.
static void broken(struct vscsi *device) {
  static const uint8_t nine[2] = {9, 0}, one[2] = {1, 0};
  struct vscsi_position position;
  uint64_t steps, accepted, used;
  uint32_t fault = 5, owed;
  uint8_t status = 5;
  IS(vscsi_settle(device, &steps), VSCSI_DONE);
  IS(vscsi_status(device, &status), VSCSI_DONE);
  IS(status, 0);
  IS(vscsi_broken(device, 2, &fault), VSCSI_DONE);
  IS(fault, VSCSI_BROKEN_NOT);
  // nine entries of eight
  IS(vscsi_poke(device, layout[2].driver + 2, nine, 2), VSCSI_DONE);
  IS(vscsi_settle(device, &steps), VSCSI_DONE);
  IS(vscsi_status(device, &status), VSCSI_DONE);
  IS(status, 64);
  IS(vscsi_broken(device, 2, &fault), VSCSI_DONE);
  IS(fault, VSCSI_BROKEN_INDEX_JUMP);
  IS(vscsi_broken(device, 1, &fault), VSCSI_DONE);
  IS(fault, VSCSI_BROKEN_NOT);
  IS(vscsi_owed(device, &owed), VSCSI_DONE);
  IS(owed, 0);
  // an event buffer of no bytes is taken and given back at once, and its driver is owed one notification
  IS(vscsi_poke(device, layout[1].driver + 2, one, 2), VSCSI_DONE);
  IS(vscsi_settle(device, &steps), VSCSI_DONE);
  IS(vscsi_progress(device, 1, &accepted, &used), VSCSI_DONE);
  IS(accepted, 1);
  IS(used, 1);
  IS(vscsi_position(device, 1, &position), VSCSI_DONE);
  IS(position.available, 1);
  IS(position.used, 1);
  IS(vscsi_owed(device, &owed), VSCSI_DONE);
  IS(owed, 2);
  IS(vscsi_owed(device, &owed), VSCSI_DONE);
  IS(owed, 0);
}

// A configuration of another size than the library's is refused, whatever else it says and whether its cause is asked for or not.
static void sizes(void) {
  struct vscsi device = {0};
  struct vscsi_fault fault = {77, 77, 77};
  begin();
  config.size = 0, IS(vscsi_create(&device, &config, &fault), VSCSI_BAD_LENGTH);
  config.size = offsetof(struct vscsi_config, profiles) - 8, IS(vscsi_create(&device, &config, &fault), VSCSI_BAD_LENGTH);
  config.size = sizeof config + 8, config.queues = 0, IS(vscsi_create(&device, &config, 0), VSCSI_BAD_LENGTH);
  IS(fault.cause, 77);
  begin(), config.pages = 0, IS(vscsi_create(&device, &config, 0), VSCSI_BAD_CONFIG);
  IS(vscsi_destroy(&device), VSCSI_NO_DEVICE);
}

// Chains are served in portions: those of the queues that are asked, in as many steps as are given.
static void portions(void) {
  static const uint8_t three[2] = {3, 0};
  struct vscsi device = {0};
  uint64_t steps = 5, accepted, used;
  bool more = false;
  begin();
  IS(vscsi_create(&device, &config, 0), VSCSI_DONE);
  IS(vscsi_serve(&device, 7, 100, &steps, &more), VSCSI_DONE);
  IS(steps, 0);
  IS(more, false);
  // three event buffers of no bytes, which are given back at once
  IS(vscsi_poke(&device, layout[1].driver + 2, three, 2), VSCSI_DONE);
  for (unsigned entry = 0; entry < 3; entry++) IS(vscsi_poke(&device, layout[1].driver + 4 + 2 * entry, &(uint8_t){(uint8_t)entry}, 1), VSCSI_DONE);
  IS(vscsi_serve(&device, 2, 0, &steps, &more), VSCSI_DONE);
  IS(steps, 0);
  IS(more, true);
  IS(vscsi_serve(&device, 5, 100, &steps, &more), VSCSI_DONE);
  IS(steps, 0);
  IS(more, false);
  IS(vscsi_serve(&device, 2, 1, &steps, &more), VSCSI_DONE);
  IS(steps, 1);
  IS(more, true);
  IS(vscsi_progress(&device, 1, &accepted, 0), VSCSI_DONE);
  IS(accepted, 1);
  IS(vscsi_serve(&device, 2, 1, 0, 0), VSCSI_DONE);
  IS(vscsi_serve(&device, UINT32_MAX, UINT64_MAX, &steps, &more), VSCSI_DONE);
  IS(more, false);
  IS(vscsi_progress(&device, 1, &accepted, &used), VSCSI_DONE);
  IS(accepted, 3);
  IS(used, 3);
  IS(vscsi_destroy(&device), VSCSI_DONE);
}

// A disk apart from a device: made, loaded, saved, destroyed.
static void disk_alone(void) {
  struct vscsi_disk disk = {0};
  uint8_t bytes[1024], found[1024] = {5};
  uint64_t blocks = 5;
  memset(bytes, 0xab, sizeof bytes);
  IS(vscsi_disk_create(&disk, 0), VSCSI_BAD_CAPACITY);
  IS(vscsi_disk_create(&disk, VSCSI_MOST_BLOCKS + 1), VSCSI_BAD_CAPACITY);
  IS(vscsi_disk_blocks(&disk, &blocks), VSCSI_NO_DISK);
  IS(vscsi_disk_create(&disk, VSCSI_MOST_BLOCKS), VSCSI_DONE);
  IS(vscsi_disk_create(&disk, 0), VSCSI_IN_USE);
  IS(vscsi_disk_blocks(&disk, &blocks), VSCSI_DONE);
  IS(blocks, (long long)VSCSI_MOST_BLOCKS);
  IS(vscsi_disk_load(&disk, VSCSI_MOST_BLOCKS - 2, 2, bytes, 1024), VSCSI_DONE);
  IS(vscsi_disk_load(&disk, VSCSI_MOST_BLOCKS - 1, 2, bytes, 1024), VSCSI_OUTSIDE);
  IS(vscsi_disk_load(&disk, UINT64_MAX, 2, bytes, 1024), VSCSI_OUTSIDE);
  IS(vscsi_disk_load(&disk, 0, 2, bytes, 1023), VSCSI_BAD_LENGTH);
  IS(vscsi_disk_load(&disk, 0, UINT32_MAX, bytes, 1024), VSCSI_BAD_LENGTH);
  IS(vscsi_disk_load(&disk, 0, 0, 0, 0), VSCSI_DONE);
  IS(vscsi_disk_save(&disk, VSCSI_MOST_BLOCKS - 1, 2, found, 1024), VSCSI_OUTSIDE);
  IS(vscsi_disk_save(&disk, 0, 1, found, 1024), VSCSI_BAD_LENGTH);
  IS(found[0], 5);
  IS(vscsi_disk_save(&disk, VSCSI_MOST_BLOCKS - 2, 2, found, 1024), VSCSI_DONE);
  IS(memcmp(found, bytes, sizeof bytes), 0);
  IS(vscsi_disk_save(&disk, 0, 2, found, 1024), VSCSI_DONE);
  IS(found[0] | found[1023], 0);
  IS(vscsi_disk_save(&disk, VSCSI_MOST_BLOCKS, 0, 0, 0), VSCSI_DONE);
  IS(vscsi_disk_destroy(&disk), VSCSI_DONE);
  IS(vscsi_disk_destroy(&disk), VSCSI_NO_DISK);
}

// A device that isn't made over these disks leaves them where they are.
static void disks_refused(struct vscsi_disk *disks) {
  struct vscsi device = {0};
  struct vscsi_fault fault = {77, 77, 77};
  uint64_t blocks;
  begin(), config.size++, IS(vscsi_create_with(&device, &config, disks, &fault), VSCSI_BAD_LENGTH);
  IS(fault.cause, 77);
  begin(), config.pages = 0, IS(vscsi_create_with(&device, &config, disks, &fault), VSCSI_BAD_CONFIG);
  IS(fault.cause, VSCSI_CAUSE_PAGES);
  begin(), units[1].blocks = 2, IS(vscsi_create_with(&device, &config, disks, &fault), VSCSI_BAD_CONFIG);
  IS(fault.cause, VSCSI_CAUSE_UNIT_DISK);
  IS(fault.place, 1);
  struct vscsi_disk hidden = disks[0];
  disks[0] = (struct vscsi_disk){0};
  begin(), IS(vscsi_create_with(&device, &config, disks, &fault), VSCSI_BAD_CONFIG);
  IS(fault.cause, VSCSI_CAUSE_UNIT_DISK);
  IS(fault.place, 0);
  // where both units lack theirs the first one is named
  fault.place = 77;
  begin(), units[1].blocks = 2, IS(vscsi_create_with(&device, &config, disks, &fault), VSCSI_BAD_CONFIG);
  IS(fault.place, 0);
  disks[0] = hidden;
  IS(vscsi_disk_blocks(&disks[0], &blocks), VSCSI_DONE);
  IS(vscsi_disk_blocks(&disks[1], &blocks), VSCSI_DONE);
  IS(vscsi_destroy(&device), VSCSI_NO_DEVICE);
}

// A device gives its disks back, but not where there is one.
static void hand_back(struct vscsi *device, struct vscsi_disk *disks, struct vscsi_disk *third) {
  struct vscsi_disk taken[2] = {{0}, *third};
  uint64_t blocks;
  IS(vscsi_close(device, taken, 2), VSCSI_IN_USE);
  IS(vscsi_disk_blocks(&taken[0], &blocks), VSCSI_NO_DISK);
  IS(vscsi_capacity(device, 0, 0, &blocks), VSCSI_DONE);
  IS(vscsi_close(device, disks, 2), VSCSI_DONE);
  IS(vscsi_close(device, disks, 2), VSCSI_NO_DEVICE);
}

// Two disks go through two devices, and come back as they were left.
static void disks_handed_on(void) {
  struct vscsi device = {0};
  struct vscsi_disk disks[2] = {{0}, {0}}, third = {0};
  struct vscsi_range ranges[VSCSI_MOST_RANGES] = {{77, 77}};
  uint8_t bytes[512], found[512];
  uint64_t blocks, place = 0;
  size_t count = 77;
  bool all = true;
  memset(bytes, 0xcd, sizeof bytes);
  IS(vscsi_disk_create(&disks[0], 1000), VSCSI_DONE);
  IS(vscsi_disk_create(&disks[1], 1), VSCSI_DONE);
  IS(vscsi_disk_create(&third, 7), VSCSI_DONE);
  IS(vscsi_disk_load(&disks[0], 999, 1, bytes, 512), VSCSI_DONE);
  disks_refused(disks);
  begin();
  IS(vscsi_create_with(&device, &config, disks, 0), VSCSI_DONE);
  IS(vscsi_create_with(&device, &config, disks, 0), VSCSI_IN_USE);
  IS(vscsi_disk_blocks(&disks[0], &blocks), VSCSI_NO_DISK);
  IS(vscsi_disk_blocks(&disks[1], &blocks), VSCSI_NO_DISK);
  IS(vscsi_blocks(&device, 0, 0, 999, 1, found, 512), VSCSI_DONE);
  IS(memcmp(found, bytes, sizeof bytes), 0);
  // nothing has changed; then the second unit grows by six blocks
  IS(vscsi_changed(&device, 4, 0, &place, ranges, VSCSI_MOST_RANGES - 1, &count, &all), VSCSI_BAD_LENGTH);
  IS(vscsi_changed(&device, 4, 1, &place, ranges, VSCSI_MOST_RANGES, &count, &all), VSCSI_NO_UNIT);
  IS(count, 77);
  IS(vscsi_changed(&device, 4, 0, &place, ranges, VSCSI_MOST_RANGES, &count, &all), VSCSI_DONE);
  IS(place, 0);
  IS(count, 0);
  IS(all, false);
  IS(vscsi_resize(&device, 4, 0, 7), VSCSI_DONE);
  IS(vscsi_changed(&device, 4, 0, &place, ranges, VSCSI_MOST_RANGES, &count, &all), VSCSI_DONE);
  IS(place, 1);
  IS(count, 1);
  IS(ranges[0].first, 1);
  IS(ranges[0].count, 6);
  IS(all, false);
  // a host that asks from a place before the last call is told that all may have changed
  place = 0;
  IS(vscsi_changed(&device, 4, 0, &place, ranges, VSCSI_MOST_RANGES, &count, &all), VSCSI_DONE);
  IS(place, 1);
  IS(all, true);
  IS(vscsi_close(&device, disks, 1), VSCSI_BAD_LENGTH);
  hand_back(&device, disks, &third);
  IS(vscsi_disk_save(&disks[0], 999, 1, found, 512), VSCSI_DONE);
  IS(memcmp(found, bytes, sizeof bytes), 0);
  IS(vscsi_disk_blocks(&disks[1], &blocks), VSCSI_DONE);
  IS(blocks, 7);
  IS(vscsi_disk_destroy(&disks[0]), VSCSI_DONE);
  IS(vscsi_disk_destroy(&disks[1]), VSCSI_DONE);
  IS(vscsi_disk_destroy(&third), VSCSI_DONE);
}

// A backed disk alone: made, but with too few pages, and its blocks aren't in memory.
static void backed_alone(void) {
  struct vscsi_disk disk = {0};
  uint8_t bytes[512] = {5};
  uint64_t blocks = 5;
  IS(vscsi_disk_create_backed(0, 0, 0), VSCSI_NULL);
  IS(vscsi_disk_create_backed(&disk, 0, 0), VSCSI_BAD_CAPACITY);
  IS(vscsi_disk_create_backed(&disk, VSCSI_MOST_BLOCKS + 1, VSCSI_LEAST_PAGES), VSCSI_BAD_CAPACITY);
  IS(vscsi_disk_create_backed(&disk, 1, VSCSI_LEAST_PAGES - 1), VSCSI_BAD_LENGTH);
  IS(vscsi_disk_blocks(&disk, &blocks), VSCSI_NO_DISK);
  IS(vscsi_disk_create_backed(&disk, VSCSI_MOST_BLOCKS, SIZE_MAX), VSCSI_DONE);
  IS(vscsi_disk_create_backed(&disk, 0, 0), VSCSI_IN_USE);
  IS(vscsi_disk_create(&disk, 0), VSCSI_IN_USE);
  IS(vscsi_disk_blocks(&disk, &blocks), VSCSI_DONE);
  IS(blocks, (long long)VSCSI_MOST_BLOCKS);
  IS(vscsi_disk_load(&disk, 0, 1, bytes, 511), VSCSI_BAD_LENGTH);
  IS(vscsi_disk_load(&disk, VSCSI_MOST_BLOCKS, 1, bytes, 512), VSCSI_OUTSIDE);
  IS(vscsi_disk_load(&disk, 0, 1, bytes, 512), VSCSI_NO_MEMORY);
  IS(vscsi_disk_save(&disk, 0, 1, bytes, 512), VSCSI_NO_MEMORY);
  IS(vscsi_disk_save(&disk, 0, 0, 0, 0), VSCSI_DONE);
  IS(bytes[0], 5);
  IS(vscsi_disk_destroy(&disk), VSCSI_DONE);
  IS(vscsi_disk_destroy(&disk), VSCSI_NO_DISK);
}

// The calls by which a host has a disk's storage, where there is no device.
static void no_storage(void) {
  struct vscsi_live device = {0};
  uint8_t bytes[VSCSI_PAGE] = {5};
  uint64_t n = 5;
  bool found = true;
  IS(vscsi_live_wanted(0, 0, 0, &n, &found), VSCSI_NULL);
  IS(vscsi_live_wanted(&device, 0, 0, 0, &found), VSCSI_NULL);
  IS(vscsi_live_wanted(&device, 0, 0, &n, 0), VSCSI_NULL);
  IS(vscsi_live_wanted(&device, 0, 0, &n, &found), VSCSI_NO_DEVICE);
  IS(vscsi_live_load(0, 0, 0, 0, bytes), VSCSI_NULL);
  IS(vscsi_live_load(&device, 0, 0, 0, 0), VSCSI_NULL);
  IS(vscsi_live_load(&device, 0, 0, 0, bytes), VSCSI_NO_DEVICE);
  IS(vscsi_live_load_failed(0, 0, 0, 0), VSCSI_NULL);
  IS(vscsi_live_load_failed(&device, 0, 0, 0), VSCSI_NO_DEVICE);
  IS(vscsi_live_lost(0, 0, 0, 0), VSCSI_NULL);
  IS(vscsi_live_lost(&device, 0, 0, 0), VSCSI_NO_DEVICE);
  IS(vscsi_live_give(0, 0, 0, &n, bytes, &found), VSCSI_NULL);
  IS(vscsi_live_give(&device, 0, 0, 0, bytes, &found), VSCSI_NULL);
  IS(vscsi_live_give(&device, 0, 0, &n, 0, &found), VSCSI_NULL);
  IS(vscsi_live_give(&device, 0, 0, &n, bytes, 0), VSCSI_NULL);
  IS(vscsi_live_give(&device, 0, 0, &n, bytes, &found), VSCSI_NO_DEVICE);
  IS(vscsi_live_written(0, 0, 0, 0, true), VSCSI_NULL);
  IS(vscsi_live_written(&device, 0, 0, 0, true), VSCSI_NO_DEVICE);
  IS(vscsi_live_denied(0, 0, 0, 0), VSCSI_NULL);
  IS(vscsi_live_denied(&device, 0, 0, 0), VSCSI_NO_DEVICE);
  IS(vscsi_live_wake(0, &n), VSCSI_NULL);
  IS(vscsi_live_wake(&device, 0), VSCSI_NO_DEVICE);
  IS(vscsi_live_wake(&device, &n), VSCSI_NO_DEVICE);
  IS(n, 5);
  IS(bytes[0], 5);
  IS(found, true);
}

// That no unit of this device has these pages: none is told, none is given, and what the host says of one changes nothing.
static void no_page(int line, struct vscsi_live *device, uint8_t target) {
  uint8_t bytes[VSCSI_PAGE] = {5};
  uint64_t n = 5;
  bool found = true;
  check(line, vscsi_live_wanted(device, target, 0, &n, &found), VSCSI_DONE);
  check(line, found, false);
  found = true;
  check(line, vscsi_live_give(device, target, 0, &n, bytes, &found), VSCSI_DONE);
  check(line, found, false);
  check(line, (long long)n, 5);
  check(line, bytes[0], 5);
  for (uint64_t page = 0; page < UINT64_MAX / 2; page = 2 * page + 1) {
    check(line, vscsi_live_load(device, target, 0, page, bytes), VSCSI_DONE);
    check(line, vscsi_live_load_failed(device, target, 0, page), VSCSI_DONE);
    check(line, vscsi_live_lost(device, target, 0, page), VSCSI_DONE);
    check(line, vscsi_live_written(device, target, 0, page, true), VSCSI_DONE);
    check(line, vscsi_live_written(device, target, 0, page, false), VSCSI_DONE);
    check(line, vscsi_live_denied(device, target, 0, page), VSCSI_DONE);
  }
  check(line, vscsi_live_wake(device, &n), VSCSI_DONE);
  check(line, (long long)n, 0);
}

// That these calls know the device's units.
static void storage(struct vscsi_live *device) {
  uint8_t bytes[VSCSI_PAGE] = {5};
  uint64_t n = 5;
  bool found = true;
  IS(vscsi_live_wanted(device, 4, 1, &n, &found), VSCSI_NO_UNIT);
  IS(vscsi_live_load(device, 4, 1, 0, bytes), VSCSI_NO_UNIT);
  IS(vscsi_live_load_failed(device, 4, 1, 0), VSCSI_NO_UNIT);
  IS(vscsi_live_lost(device, 4, 1, 0), VSCSI_NO_UNIT);
  IS(vscsi_live_give(device, 4, 1, &n, bytes, &found), VSCSI_NO_UNIT);
  IS(vscsi_live_written(device, 4, 1, 0, true), VSCSI_NO_UNIT);
  IS(vscsi_live_denied(device, 4, 1, 0), VSCSI_NO_UNIT);
  IS(n, 5);
  IS(bytes[0], 5);
  IS(found, true);
  no_page(__LINE__, device, 0);
  no_page(__LINE__, device, 4);
}

// Which devices take a backed disk, here that of the second unit: those on live memory.
static void backed_refused(void) {
  struct vscsi_live device = {0};
  struct vscsi copies = {0};
  struct vscsi_disk disks[2] = {{0}, {0}};
  struct vscsi_ring rings[QUEUES] = {0};
  struct vscsi_fault fault = {77, 77, 77};
  uint64_t blocks;
  begin();
  struct vscsi_live_config live = live_config_of(units, 2, rings, 0);
  IS(vscsi_disk_create(&disks[0], 1000), VSCSI_DONE);
  IS(vscsi_disk_create_backed(&disks[1], 1, VSCSI_LEAST_PAGES), VSCSI_DONE);
  for (int round = 0; round < 2; round++) {
    const uint8_t *profile = round ? wide : NULL;
    config.profiles = profile;
    fault = (struct vscsi_fault){77, 77, 77};
    IS(vscsi_create_with(&copies, &config, disks, &fault), VSCSI_BAD_CONFIG);
    IS(fault.cause, VSCSI_CAUSE_UNIT_DISK);
    IS(fault.place, 1);
    IS(fault.detail, 0);
    IS(vscsi_create_with(&copies, &config, disks, 0), VSCSI_BAD_CONFIG);
    IS(vscsi_disk_blocks(&disks[1], &blocks), VSCSI_DONE);
    config.pages = 0; // which is told first
    IS(vscsi_create_with(&copies, &config, disks, &fault), VSCSI_BAD_CONFIG);
    IS(fault.cause, VSCSI_CAUSE_PAGES);
    begin();
  }
  live.profiles = wide, units[1].blocks = 2;
  fault = (struct vscsi_fault){77, 77, 77};
  IS(vscsi_live_create(&device, &live, disks, &fault), VSCSI_BAD_CONFIG);
  IS(fault.cause, VSCSI_CAUSE_UNIT_DISK);
  IS(fault.place, 1);
  units[1].blocks = 1;
  IS(vscsi_live_create(&device, &live, disks, &fault), VSCSI_DONE);
  IS(vscsi_live_create(&device, &live, disks, &fault), VSCSI_IN_USE);
  IS(vscsi_disk_blocks(&disks[1], &blocks), VSCSI_NO_DISK);
  storage(&device);
  IS(vscsi_live_close(&device, disks, 2), VSCSI_DONE);
  IS(vscsi_disk_destroy(&disks[0]), VSCSI_DONE);
  IS(vscsi_disk_destroy(&disks[1]), VSCSI_DONE);
}

// Each number has a text, a different one where it means something.
static void texts(void) {
  for (uint32_t i = 0; i < 20; i++) {
    for (uint32_t j = 0; j < i; j++) {
      IS(strcmp(vscsi_answer_text((enum vscsi_answer)i), vscsi_answer_text((enum vscsi_answer)j)) != 0 || j > VSCSI_NO_DISK, true);
      IS(strcmp(vscsi_broken_text(i), vscsi_broken_text(j)) != 0 || j > VSCSI_BROKEN_RING_OVERRUN, true);
      IS(strcmp(vscsi_cause_text(i), vscsi_cause_text(j)) != 0 || j == 0 || j == 6 || j == 7 || j > VSCSI_CAUSE_UNIT_NAA, true);
    }
  }
  IS(strcmp(vscsi_answer_text(VSCSI_NO_MEMORY), "no memory"), 0);
  IS(strcmp(vscsi_cause_text(0), vscsi_cause_text(UINT32_MAX)), 0);
  IS(vscsi_broken_text(UINT32_MAX)[0] != 0, true);
  IS(vscsi_version(), VSCSI_VERSION);
  IS(vscsi_version(), VSCSI_VERSION_MAJOR << 16 | VSCSI_VERSION_MINOR << 8 | VSCSI_VERSION_PATCH);
  IS(vscsi_features(), VSCSI_FEATURES);
}

// Devices come and go. Whether they left memory behind is for others to see.
static void many(void) {
  struct vscsi device = {0};
  begin();
  for (unsigned round = 0; round < 10000; round++) {
    IS(vscsi_create(&device, &config, 0), VSCSI_DONE);
    IS(vscsi_destroy(&device), VSCSI_DONE);
  }
}

int main(void) {
  struct vscsi device = {0};
  struct vscsi_fault fault;
  causes();
  each_profile();
  names();
  each_name();
  each_format();
  each_access();
  older();
  older_live();
  sizes();
  nulls();
  no_device();
  portions();
  disk_alone();
  disks_handed_on();
  backed_alone();
  no_storage();
  backed_refused();
  texts();
  for (int round = 0; round < 2; round++) {
    begin();
    IS(vscsi_create(&device, &config, &fault), VSCSI_DONE);
    calls(&device);
    broken(&device);
    IS(vscsi_destroy(&device), VSCSI_DONE);
    IS(vscsi_destroy(&device), VSCSI_NO_DEVICE);
  }
  many();
  printf("errors: %u as they should be\n", tests);
  return 0;
}

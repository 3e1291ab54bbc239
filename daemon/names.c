#include "names.h"

#include <stdio.h>
#include <string.h>
#include <sys/stat.h>

#include "log.h"
#include "naa.h"

enum { MOST_EXPONENT = 15, LEAST_RATE = 0x401, MOST_RATE = 0xfffe, WHY = 300 };

// The words, by their places in `named` of a disk.
static const char *const words[] = {"vendor=", "product=", "revision=", "serial=", "naa=", "physical-block-exp=", "rotation-rate=", "sense="};
enum { VENDOR, PRODUCT, REVISION, SERIAL, NAA, EXPONENT, RATE, SENSE, WORDS };

static bool is_printable(const char *text, size_t length) {
  for (size_t i = 0; i < length; i++)
    if (text[i] < 0x20 || text[i] > 0x7e) return false;
  return true;
}

// Takes a text into a field. Returns false where it is empty, too long, or not printable ASCII.
static bool take_text(char *field, size_t size, const char *text, size_t length) {
  if (!length || length > size || !is_printable(text, length)) return false;
  memcpy(field, text, length);
  return true;
}

// Takes a decimal number of at most five digits.
static bool take_number(const char *text, size_t length, unsigned *found) {
  *found = 0;
  for (size_t i = 0; i < length; i++) {
    if (text[i] < '0' || text[i] > '9') return false;
    *found = 10 * *found + (unsigned)(text[i] - '0');
  }
  return length && length <= 5;
}

// Takes the name of a format of sense data.
static bool take_format(uint8_t *format, const char *text, size_t length) {
  static const char *const formats[] = {[VSCSI_SENSE_FIXED] = "fixed", [VSCSI_SENSE_DESCRIPTOR] = "descriptor"};
  for (uint8_t i = 0; i < sizeof formats / sizeof *formats; i++) {
    if (length != strlen(formats[i]) || strncmp(text, formats[i], length)) continue;
    *format = i;
    return true;
  }
  return false;
}

static bool take_value(struct vscsi_identity *names, int which, const char *text, size_t length) {
  unsigned value;
  switch (which) {
    case VENDOR: return take_text(names->vendor, sizeof names->vendor, text, length);
    case PRODUCT: return take_text(names->product, sizeof names->product, text, length);
    case REVISION: return take_text(names->revision, sizeof names->revision, text, length);
    case SERIAL: return take_text(names->serial, sizeof names->serial, text, length);
    case NAA: return naa_take(names->naa, text, length);
    case EXPONENT:
      if (!take_number(text, length, &value) || value > MOST_EXPONENT) return false;
      names->physical_exponent = (uint8_t)value;
      return true;
    case SENSE: return take_format(&names->sense_format, text, length);
    default:
      if (!take_number(text, length, &value) || (value > 1 && (value < LEAST_RATE || value > MOST_RATE))) return false;
      names->rotation_rate = (uint16_t)(value ? value : VSCSI_RATE_NOT_REPORTED);
      return true;
  }
}

// What each word takes.
static const char *const wanted[] = {"1 to 8 printable characters of ASCII, and no comma",
                                     "1 to 16 printable characters of ASCII, and no comma",
                                     "1 to 4 printable characters of ASCII, and no comma",
                                     "1 to 20 printable characters of ASCII, and no comma",
                                     "16 hexadecimal digits, of which the first is 3 or 5",
                                     "a number from 0 to 15",
                                     "0, 1, or a number from 1025 to 65534",
                                     "fixed or descriptor"};

enum named names_take(struct disk *disk, const char *word, size_t length, char *why, size_t room) {
  for (int which = 0; which < WORDS; which++) {
    size_t begun = strlen(words[which]);
    if (length < begun || strncmp(word, words[which], begun)) continue;
    if (disk->named >> which & 1) return snprintf(why, room, "%.*s is there twice", (int)begun, word), NAMED_WRONGLY;
    if (!take_value(&disk->names, which, word + begun, length - begun))
      return snprintf(why, room, "%.*s wants %s", (int)begun, word, wanted[which]), NAMED_WRONGLY;
    disk->named |= 1u << which;
    return NAMED_WELL;
  }
  return NAMED_NOT;
}

static bool has_naa(const struct disk *disk) { return disk->names.naa[0]; }

// Returns the other disk that has this disk's NAA, or NULL.
static const struct disk *sharer(const struct disks *disks, const struct disk *disk) {
  for (size_t i = 0; has_naa(disk) && i < disks->count; i++) {
    const struct disk *other = &disks->disks[i];
    bool is_itself = other->target == disk->target && other->lun == disk->lun;
    if (!is_itself && !memcmp(other->names.naa, disk->names.naa, sizeof disk->names.naa)) return other;
  }
  return NULL;
}

bool names_suit(const struct disks *disks, const struct disk *disk, char *why, size_t room) {
  if (disk->named && !disk->wide) return snprintf(why, room, "a disk with profile=narrow has no names"), false;
  if (sharer(disks, disk)) return snprintf(why, room, "naa= is that of another disk"), false;
  return true;
}

// Returns whether a disk's NAA is kept: that of no name that was given, on a file that stays where it is. The nodes of block devices go
// when the machine does.
static bool is_kept(const struct disk *disk) {
  struct stat stat;
  if (!disk->wide || !disk->path || has_naa(disk)) return false;
  return disk->file < 0 || (!fstat(disk->file, &stat) && S_ISREG(stat.st_mode));
}

static bool is_one_image(const struct disk *disk, const struct disk *other) {
  struct stat its, others;
  if (disk->file < 0 || other->file < 0 || fstat(disk->file, &its) || fstat(other->file, &others)) return false;
  return its.st_dev == others.st_dev && its.st_ino == others.st_ino;
}

// Settles whose an NAA is that came from a file: the first disk of an image has it, and others have none. Returns false, and says why,
// where a disk of another image has it.
static bool settle(const struct disks *disks, struct disk *disk, char *why, size_t room) {
  const struct disk *other = sharer(disks, disk);
  if (!other) return true;
  bool is_one = is_one_image(disk, other);
  snprintf(why, room, "%s.naa: the NAA of another disk%s", disk->path, is_one ? "" : "; take the file away where this image is a copy");
  memset(disk->names.naa, 0, sizeof disk->names.naa);
  return is_one;
}

bool names_read(struct disks *disks, char *why, size_t room) {
  for (size_t i = 0; i < disks->count; i++) {
    struct disk *disk = &disks->disks[i];
    if (!is_kept(disk)) continue;
    if (naa_read(disk->path, disk->names.naa, why, room) == NAA_WRONG || !settle(disks, disk, why, room)) return false;
  }
  return true;
}

void names_keep(struct disks *disks, uid_t user, gid_t group) {
  char why[WHY];
  for (size_t i = 0; i < disks->count; i++) {
    struct disk *disk = &disks->disks[i];
    if (!is_kept(disk)) continue;
    disk->has_new_naa = naa_keep(disk->path, disk->names.naa, user, group, why, sizeof why) == NAA_MADE;
    if (!disk->has_new_naa) settle(disks, disk, why, sizeof why);
    if (!has_naa(disk)) log_say(LOG_NOTE, disk, "it has no NAA: %s", why);
  }
}

void names_undo(struct disks *disks) {
  for (size_t i = 0; i < disks->count; i++)
    if (disks->disks[i].has_new_naa) naa_undo(disks->disks[i].path, disks->disks[i].names.naa);
}

bool names_give(const struct disks *disks, struct disk *disk, const char *text, char *why, size_t room) {
  bool is_wanting = disk->wide && disk->path && !has_naa(disk);
  if (!is_wanting) return snprintf(why, room, "its argument naa is of a wide disk on a file, without naa="), false;
  if (!naa_take(disk->names.naa, text, strlen(text))) return snprintf(why, room, "its argument naa wants %s", wanted[NAA]), false;
  bool stands = settle(disks, disk, why, room);
  if (stands && !has_naa(disk)) log_say(LOG_NOTE, disk, "it has no NAA: %s", why);
  return stands;
}

// The NAA of a disk that has none by its words: it is kept beside the disk's image, in the file IMAGE.naa, as 16 hexadecimal digits.
#ifndef DAEMON_NAA_H
#define DAEMON_NAA_H

#include <stdbool.h>
#include <stddef.h>
#include <stdint.h>
#include <sys/types.h>

enum { NAA_BYTES = 8, NAA_DIGITS = 16 };

// What came of an NAA's file: there is none; it was there; it was made; or it is there and has no NAA.
enum naa { NAA_NONE, NAA_READ, NAA_MADE, NAA_WRONG };

// Takes 16 hexadecimal digits, of which the first is 3 or 5. Returns false where these aren't that.
bool naa_take(uint8_t naa[NAA_BYTES], const char *text, size_t length);

// Writes the digits of an NAA, and a zero behind them.
void naa_print(const uint8_t naa[NAA_BYTES], char text[NAA_DIGITS + 1]);

// Reads the NAA that is kept beside an image. Returns NAA_NONE where there is no such file, and NAA_WRONG, and says why, where it can't be
// read or has something else.
enum naa naa_read(const char *image, uint8_t naa[NAA_BYTES], char *why, size_t room);

// Makes an NAA 3h of 60 random bits, and keeps it beside an image, for this owner: all of it, or no file. Returns NAA_READ where another
// process kept one meanwhile, which it reads. Returns NAA_NONE, and says why, where none can be kept.
enum naa naa_keep(const char *image, uint8_t naa[NAA_BYTES], uid_t user, gid_t group, char *why, size_t room);

// Takes the file away where this NAA stands in it. Where that can't be it stays, for whoever reads it next.
void naa_undo(const char *image, const uint8_t naa[NAA_BYTES]);

#endif

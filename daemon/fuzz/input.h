// The bytes of one input, taken as numbers. All numbers behind its end are 0.
#ifndef DAEMON_FUZZ_INPUT_H
#define DAEMON_FUZZ_INPUT_H

#include <stddef.h>
#include <stdint.h>

struct input {
  const uint8_t *at;
  size_t left;
};

// Takes a number of so many bytes, its lowest byte first.
uint64_t input_take(struct input *input, size_t bytes);

// Takes a number below `end`.
unsigned input_below(struct input *input, unsigned end);

// Takes a number of any size that often lies at a border: of a page, of the guest's memory, of a field.
uint64_t input_number(struct input *input);

#endif

#include "input.h"

#include "connection.h"

uint64_t input_take(struct input *input, size_t bytes) {
  uint64_t number = 0;
  for (size_t i = 0; i < bytes && input->left; i++, input->left--) number |= (uint64_t)*input->at++ << 8 * i;
  return number;
}

unsigned input_below(struct input *input, unsigned end) { return (unsigned)input_take(input, end > 256 ? 2 : 1) % end; }

uint64_t input_number(struct input *input) {
  static const uint64_t borders[] = {0,      1,       2,          4,          8,          16,       64,          108,        256,
                                     511,    512,     1024,       4095,       4096,       8192,     0x7fff,      0x8000,     0xffff,
                                     1 << 16, 1 << 20, HALF,       GUEST_BYTES, USER,      FAR_USER, 0x10000000, 0x7fffffff, UINT32_MAX,
                                     FAR,    INT64_MAX, UINT64_MAX - 4095, UINT64_MAX - 8, UINT64_MAX};
  enum { BORDERS = sizeof borders / sizeof *borders };
  unsigned which = (unsigned)input_take(input, 1);
  if (which < BORDERS) return borders[which];
  // A little above or below a border.
  if (which < 3 * BORDERS) return borders[which % BORDERS] + input_take(input, 1) - 128;
  return input_take(input, which < 160 ? 1 : which < 208 ? 2 : which < 240 ? 4 : 8);
}

// Runs a fuzzer's inputs once, each a file, without libFuzzer. Prints how many there were.
#include <stdint.h>
#include <stdio.h>
#include <stdlib.h>

enum { MOST_BYTES = 1 << 20 };

int LLVMFuzzerTestOneInput(const uint8_t *data, size_t size);

int main(int count, char **paths) {
  uint8_t *bytes = malloc(MOST_BYTES);
  for (int i = 1; bytes && i < count; i++) {
    FILE *file = fopen(paths[i], "rb");
    if (!file) return perror(paths[i]), 1;
    size_t size = fread(bytes, 1, MOST_BYTES, file);
    fclose(file);
    // What an input breaks ends the process: the last line that stands here names it.
    fprintf(stderr, "%s\n", paths[i]);
    LLVMFuzzerTestOneInput(bytes, size);
  }
  free(bytes);
  return printf("%d inputs\n", count - 1) < 0;
}

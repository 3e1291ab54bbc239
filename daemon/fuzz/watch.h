// What stands around an input while it runs.
#ifndef DAEMON_FUZZ_WATCH_H
#define DAEMON_FUZZ_WATCH_H

#include <stddef.h>
#include <stdint.h>

// Begins an input. Its bytes stand in the file that the environment names as VSCSI_FUZZ_INPUT, if it names one, however the process ends.
// The process ends by abort where the input takes more than 10 seconds of the processor.
void watch_begin(const uint8_t *data, size_t size);
void watch_end(void);

#endif

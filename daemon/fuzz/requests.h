// Requests of a driver to the device's disks, most of them right.
#ifndef DAEMON_FUZZ_REQUESTS_H
#define DAEMON_FUZZ_REQUESTS_H

#include "driver.h"
#include "input.h"

// Makes a request available that the input chooses: its command, its data, and how its chain lies.
void request_put(struct driver *driver, struct input *input);

// Makes a task management function, an asynchronous notification or a buffer for events available.
void request_put_control(struct driver *driver, struct input *input);
void request_put_event(struct driver *driver, struct input *input);

#endif

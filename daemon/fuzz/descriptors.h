// Descriptors of many kinds, as a front end may send them in place of what a message wants.
#ifndef DAEMON_FUZZ_DESCRIPTORS_H
#define DAEMON_FUZZ_DESCRIPTORS_H

#include "connection.h"

// Opens a descriptor of this kind, which the caller closes. Any number is a kind.
int descriptor_open(const struct connection *connection, unsigned kind);

#endif

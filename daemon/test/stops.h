// Tests of queues that are stopped and go on.
#ifndef DAEMON_TEST_STOPS_H
#define DAEMON_TEST_STOPS_H

// Queues that are stopped at any place of their ring, with something available, with event buffers that the device holds, twice,
// and broken ones: each goes on where it stopped, and so do the others.
void test_stops(void);

// Queues that are enabled one after the other, each with something available: each is asked for its next notification.
void test_enabled(void);

#endif

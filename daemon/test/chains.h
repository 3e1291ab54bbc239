// Tests of chains at the bounds: how many parts they have, how many bytes, and where these lie.
#ifndef DAEMON_TEST_CHAINS_H
#define DAEMON_TEST_CHAINS_H

// An event buffer with more readable bytes than an event has room for, behind a control request of the same round.
void test_events(void);

// Chains of 2^32 bytes, the most that VIRTIO 1.2 allows (2.7.4), and of one byte more.
void test_totals(void);

// Buffers behind the guest's memory: what is written there is lost, and what is read there is zeros.
void test_holes(void);

// A readable part behind a writable one that has no bytes.
void test_order(void);

// Tables of many descriptors, and many chains that share one.
void test_tables(void);
void test_shared(void);

#endif

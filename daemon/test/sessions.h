// Tests of what a front end does beside requests: it changes its memory, starts and stops queues, and gives descriptors.
#ifndef DAEMON_TEST_SESSIONS_H
#define DAEMON_TEST_SESSIONS_H

// Memory whose regions change their places under a device that stands.
void test_moved(void);

// Regions that are added and removed one by one, up to the most there may be.
void test_slots(void);

// A ring whose region goes and doesn't come again: the others go on once it is stopped, or all are reset.
void test_torn(void);

// Regions that aren't aligned, and one at the end of all addresses.
void test_regions(void);

// Memory that becomes shorter while it is in use, and memory that can be kept from that.
void test_short(void);

// Bases of the other form than was agreed on.
void test_forms(void);

// Descriptors that are stale, behind a packed queue that is full.
void test_stale(void);

// Kicks that can't be read, and queues that have none.
void test_kicks(void);

// Eventfds that are read as a queue stops, and pipes that are read as they kick.
void test_pipes(void);

// A call's descriptor that comes behind answers: it is told of them.
void test_called(void);

// Descriptors of which the front end has the daemon's reads and writes wait.
void test_waits(void);

// A reset, behind which the front end gives some descriptors no more.
void test_reset(void);

// A device that is refused memory for a time, as it is made and as it serves, and one that always has something left to do.
void test_refused(void);
void test_endless(void);

// Rings that are looked at while their driver is busy, without its kicks: always for as long, or as that pays. And one that isn't
// served when its driver would be asked for its kicks again.
void test_polls(void);
void test_windows(void);
void test_disabled(void);

// A kick's descriptor that is replaced while its driver notifies.
void test_replaced(void);

// A request that comes just as its driver is asked to notify, in a round that is cut off.
void test_late(void);

// Requests of queues that had nothing left in a round that is cut off among their turns.
void test_interrupted(void);

// The status of a device, whose reset it also is.
void test_status(void);

#endif

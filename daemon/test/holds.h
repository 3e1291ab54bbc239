// Tests of answers that wait, since a disk's file can't be written.
#ifndef DAEMON_TEST_HOLDS_H
#define DAEMON_TEST_HOLDS_H

// Two disks, of which one can't be written: no answer of either is seen before it can, and then all are.
void test_held(void);

// Queues that are stopped meanwhile: what was seen stays, and what wasn't runs once more.
void test_stopped(void);

// A queue that stops behind its answers, before its driver is asked to notify of the next request, and goes on with none.
void test_unasked(void);

// A daemon that dies while answers wait: the next one goes on behind what was shown, though the front end says another base.
void test_killed(void);

// Memory that is said anew while answers wait.
void test_waiting(void);

#endif

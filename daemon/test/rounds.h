// Tests of rounds: many requests at once, queues that take turns, and files that can't be written.
#ifndef DAEMON_TEST_ROUNDS_H
#define DAEMON_TEST_ROUNDS_H

// 120 WRITEs at once to places far apart, and UNMAPs of many descriptors: each writes what it changes, and not the whole disk.
void test_scattered(void);

// A round that takes long to be written: messages are answered meanwhile, and those that end the device wait.
void test_slow(void);

// A file that can't be written for a time: nothing is answered, and nothing is lost.
void test_full(void);

// A file that can't be written, whose backlog gets no room for what is to be written.
void test_crowded(void);

// A file whose fdatasync fails, and which then hasn't got what was written.
void test_forgetful(void);

// A front end that goes away while the file can't be written: the next one finds everything on the file.
void test_abandoned(void);

// A disk that can't be loaded for a time as a queue begins: its requests wait, and the session goes on.
void test_unloaded(void);

// Zeros that are written, and blocks that are unmapped, on files that have the word detect-zeroes=unmap or not.
void test_zeros(void);

// FORMAT UNIT and WRITE SAME that take no data: the file has their zeros before they are answered.
void test_formatted(void);

// A queue that is refilled whenever it is served, beside one with a request.
void test_turns(void);

// Task management behind WRITEs that weren't fetched.
void test_order_of_control(void);

// What a request costs beside the device: no memory and no text.
void test_costs(void);

#endif

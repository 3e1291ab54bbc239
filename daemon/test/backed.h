// Tests of backed disks, whose pages come and go. Without liburing there are none.
#ifndef DAEMON_TEST_BACKED_H
#define DAEMON_TEST_BACKED_H

// More pages than memory may have: the file has them behind SYNCHRONIZE CACHE, and each is read back.
void test_backed(void);

// A disk that ends within a page, and zeros that are holes of the file or not.
void test_backed_ends(void);
void test_backed_zeros(void);

// A file that can't be read for a time: the commands that need it wait, and no others.
void test_backed_unread(void);
void test_backed_lost(void);

// A file that can't be written, or synced, for a time: SYNCHRONIZE CACHE waits, and nothing is lost.
void test_backed_unwritten(void);

// With werror=report SYNCHRONIZE CACHE ends with MEDIUM ERROR, and nothing is lost.
void test_backed_denied(void);

// Pages that the file lacks as a session ends: the daemon writes them, or the next front end finds them in memory.
void test_backed_left(void);

// Queues that stop while commands wait, and notify of others behind these.
void test_backed_stops(void);

// A page that is written while it is being read.
void test_backed_stale(void);

// Anything, among any of these faults: each READ finds what was written last, and the file what was flushed.
void test_backed_anything(void);

// Of pages that are read ahead, and of some that are written meanwhile, each is what was written last.
void test_backed_ahead(void);

// Commands that want pages which stand ready go on, though the device leaves off as these are handed in.
void test_backed_woken(void);

// A backed disk beside one in memory, and beside one whose answers wait for its file.
void test_backed_beside(void);

#endif

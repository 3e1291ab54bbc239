// Tests of the log of writes (vhost-user: LOG_SHMFD, LOG_ALL), by which a guest is moved to another host.
#ifndef DAEMON_TEST_LOGS_H
#define DAEMON_TEST_LOGS_H

// Each page that is written has its bit, no other has one, and a page's bit is there before the driver can see the answer.
void test_logged(void);

// Device areas that are logged elsewhere than where they lie.
void test_logged_elsewhere(void);

// A log that ends, and that another one takes the place of.
void test_logs_change(void);

// Answers that wait for a file while the front end takes the bits away: each page that is written then has its bit again.
void test_logged_behind(void);

// Logs that can't be had, and one that becomes shorter.
void test_wrong_logs(void);

#endif

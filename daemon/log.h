// The daemon's lines, on standard error or on a file. No call waits for whoever reads them.
#ifndef DAEMON_LOG_H
#define DAEMON_LOG_H

#include <fcntl.h>
#include <stdbool.h>

struct disk;

// How the log's file is opened: never waited for, not even where it is a pipe.
enum { LOG_FLAGS = O_WRONLY | O_APPEND | O_CREAT | O_NONBLOCK | O_NOCTTY | O_CLOEXEC };

// A note says how the daemon works, and isn't said when the operator wants it quiet. An error always is.
enum log_level { LOG_NOTE, LOG_ERROR };

// Opens the log, on the file at `path`, to whose end it is added, or on standard error where `path` is NULL. Until then nothing is said.
// Returns false, with errno, where the file can't be opened. The path stays the caller's, and has to stay where it is.
bool log_open(const char *path, bool quiet);

// Opens the log's file again, after somebody moved it. Where that can't be, the old one stays.
void log_reopen(void);

// Says how many lines were left out, and ends the log.
void log_close(void);

// Has the lines from now on name this session, or none where the number is 0.
void log_session(unsigned long number);

// Says a line, as printf does, with the time, the session's number and the disk, if there is one (else NULL). A line is left out
// where more come than the log takes, or where nobody reads them. The next one says how many were.
__attribute__((format(printf, 3, 4))) void log_say(enum log_level level, const struct disk *disk, const char *format, ...);

#endif

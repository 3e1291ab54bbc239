#include "signals.h"

#include <signal.h>
#include <sys/signalfd.h>
#include <unistd.h>

int signals_begin(void) {
  sigset_t signals;
  sigemptyset(&signals);
  sigaddset(&signals, SIGTERM);
  sigaddset(&signals, SIGINT);
  sigaddset(&signals, SIGHUP);
  if (sigprocmask(SIG_BLOCK, &signals, NULL)) return -1;
  signal(SIGPIPE, SIG_IGN);
  signal(SIGXFSZ, SIG_IGN);
  return signalfd(-1, &signals, SFD_CLOEXEC | SFD_NONBLOCK);
}

enum signal_read signals_read(int fd) {
  struct signalfd_siginfo came;
  if (read(fd, &came, sizeof came) != (ssize_t)sizeof came) return SIGNAL_NONE;
  return came.ssi_signo == SIGHUP ? SIGNAL_LOG : SIGNAL_END;
}

bool signals_end_waits(void) {
  sigset_t waiting;
  return !sigpending(&waiting) && (sigismember(&waiting, SIGTERM) == 1 || sigismember(&waiting, SIGINT) == 1);
}

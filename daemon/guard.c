#include "guard.h"

#include <signal.h>
#include <stddef.h>

static const struct memory *guarded;
static volatile sig_atomic_t is_gone;

static void take_signal(int number, siginfo_t *info, void *context) {
  (void)context;
  is_gone = 1;
  // None of a guest's memory: it happens again, and ends the daemon.
  if (!guarded || !memory_blank(guarded, info->si_addr)) signal(number, SIG_DFL);
}

void guard_begin(const struct memory *memory) {
  struct sigaction action = {.sa_sigaction = take_signal, .sa_flags = SA_SIGINFO};
  sigemptyset(&action.sa_mask);
  guarded = memory;
  is_gone = 0;
  if (memory) sigaction(SIGBUS, &action, NULL);
}

bool guard_found(void) { return is_gone; }

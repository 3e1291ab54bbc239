#include "watch.h"

#include <fcntl.h>
#include <signal.h>
#include <stdbool.h>
#include <stdlib.h>
#include <string.h>
#include <sys/mman.h>
#include <time.h>
#include <unistd.h>

#include "connection.h"

// The bytes of an input that are kept, and the seconds of the processor that it may take.
enum { MOST_KEPT = 4096, LONGEST = 10 };

static timer_t timer;
static int file = -1;
static uint8_t *kept;

static void take_signal(int number) {
  static const char text[] = "fuzz: an input took more than 10 seconds of the processor\n";
  (void)number;
  (void)!write(STDERR_FILENO, text, sizeof text - 1);
  abort();
}

// The signal goes to this thread, whose stack says what takes so long.
static void begin_timer(void) {
  struct sigaction action = {.sa_handler = take_signal};
  struct sigevent event = {.sigev_notify = SIGEV_THREAD_ID, .sigev_signo = SIGXCPU};
  event._sigev_un._tid = gettid();
  if (sigaction(SIGXCPU, &action, NULL) || timer_create(CLOCK_THREAD_CPUTIME_ID, &event, &timer)) found("no timer");
}

static void open_file(const char *path) {
  file = open(path, O_RDWR | O_CREAT | O_CLOEXEC, 0600);
  if (file < 0 || ftruncate(file, MOST_KEPT)) found("no file for an input");
  void *at = mmap(NULL, MOST_KEPT, PROT_READ | PROT_WRITE, MAP_SHARED, file, 0);
  if (at == MAP_FAILED) found("no file for an input");
  kept = at;
}

static void set_timer(time_t seconds) {
  const struct itimerspec when = {.it_value.tv_sec = seconds};
  if (timer_settime(timer, 0, &when, NULL)) found("no timer");
}

void watch_begin(const uint8_t *data, size_t size) {
  static bool is_ready;
  const char *path = getenv("VSCSI_FUZZ_INPUT");
  if (!is_ready && path) open_file(path);
  if (!is_ready) begin_timer();
  is_ready = true;
  // The file is as long as the input, and the mapping longer: what is written behind the file's end is nowhere.
  if (kept && size <= MOST_KEPT && !ftruncate(file, (off_t)size) && size) memcpy(kept, data, size);
  set_timer(LONGEST);
}

void watch_end(void) { set_timer(0); }

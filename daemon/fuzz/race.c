#include "race.h"

#include <pthread.h>
#include <semaphore.h>
#include <stdatomic.h>
#include <stdlib.h>

#include "../bytes.h"
#include "connection.h"
#include "driver.h"

static pthread_t thread;
static sem_t begins, ended;
static atomic_bool goes_on;
static uint64_t state = 0x9e3779b97f4a7c15;

// The next number of a xorshift generator.
static uint64_t number(void) {
  state ^= state << 13;
  state ^= state >> 7;
  state ^= state << 17;
  return state;
}

// Chooses a place that the daemon looks at while it serves.
static uint8_t *place(void) {
  uint64_t which = number();
  uint64_t areas[] = {place_of((unsigned)(which % QUEUES), 0), place_of((unsigned)(which % QUEUES), 1), TABLES, HEADS};
  return guest_memory() + areas[which / QUEUES % 4] + which / 64 % 1024;
}

// Writes a byte that stood elsewhere or is any, for a moment or for good.
static void scribble(void) {
  volatile uint8_t *at = place();
  uint8_t before = *at;
  *at = number() % 2 ? *place() : (uint8_t)number();
  for (volatile unsigned wait = (unsigned)number() % 64; wait; wait--) continue;
  if (number() % 4) *at = before;
}

static void *run(void *unused) {
  (void)unused;
  for (;;) {
    sem_wait(&begins);
    while (atomic_load(&goes_on)) scribble();
    sem_post(&ended);
  }
  return NULL;
}

bool race_runs(void) { return getenv("VSCSI_FUZZ_RACE") != NULL; }

void race_begin(void) {
  static bool is_made;
  if (!race_runs()) return;
  if (!is_made && (sem_init(&begins, 0, 0) || sem_init(&ended, 0, 0) || pthread_create(&thread, NULL, run, NULL))) found("no thread");
  is_made = true;
  atomic_store(&goes_on, true);
  sem_post(&begins);
}

void race_end(void) {
  if (!race_runs()) return;
  atomic_store(&goes_on, false);
  sem_wait(&ended);
}

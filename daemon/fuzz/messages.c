// One input is the stream of messages of a front end: a right set-up whose messages are left out, changed, cut, said twice or sent
// with other descriptors; messages of any kind; and bytes of any kind.
#include <string.h>
#include <sys/eventfd.h>
#include <unistd.h>

#include "../bytes.h"
#include "descriptors.h"
#include "requests.h"
#include "sent.h"
#include "watch.h"

struct stream {
  struct connection connection;
  struct driver driver;
  struct input input;
  struct sent set_up[MOST_SENT];
  size_t count, next;
};

// Returns the next message of the set-up. Behind the last one the first one comes.
static struct sent next(struct stream *stream) {
  if (stream->next >= stream->count) stream->next = 0;
  return stream->set_up[stream->next++];
}

static void send_whole(struct stream *stream, const struct sent *sent) { connection_send(&stream->connection, sent, 0, sent->length); }

static void send_next(struct stream *stream) {
  struct sent sent = next(stream);
  send_whole(stream, &sent);
}

static void skip(struct stream *stream) { stream->next = input_below(&stream->input, MOST_SENT); }

static void change(struct stream *stream) {
  struct sent sent = next(stream);
  for (unsigned changes = 1 + input_below(&stream->input, 4); changes; changes--) {
    static const size_t widths[] = {1, 2, 4, 8};
    size_t at = input_below(&stream->input, HEADER + 80), width = widths[input_below(&stream->input, 4)];
    little_put(sent.bytes + at, input_number(&stream->input), width);
  }
  send_whole(stream, &sent);
}

static void cut(struct stream *stream) {
  struct sent sent = next(stream);
  size_t at = input_below(&stream->input, 128);
  if (at > sent.length) at = sent.length;
  connection_send(&stream->connection, &sent, 0, at);
  connection_pump(&stream->connection);
  connection_send(&stream->connection, &sent, at, sent.length);
}

// Sends a message with descriptors that the input chooses, also more or fewer than it may have.
static void send_with(struct stream *stream, struct sent *sent) {
  int opened[MOST_SENT_FDS];
  sent->fd_count = input_below(&stream->input, MOST_SENT_FDS + 1);
  for (size_t i = 0; i < sent->fd_count; i++)
    sent->fds[i] = opened[i] = descriptor_open(&stream->connection, (unsigned)input_take(&stream->input, 1));
  send_whole(stream, sent);
  for (size_t i = 0; i < sent->fd_count; i++) close(opened[i]);
}

static void other_descriptors(struct stream *stream) {
  struct sent sent = next(stream);
  send_with(stream, &sent);
}

// Sends any message: of a request that the daemon may know, with bytes of the input.
static void any(struct stream *stream) {
  struct sent sent;
  uint32_t request = input_below(&stream->input, 48);
  size_t size = input_below(&stream->input, 80);
  // One that is longer than any that there is.
  if (size == 79) size = MOST_PAYLOAD + 64;
  sent_begin(&sent, request, size);
  for (size_t i = 0; i < size && stream->input.left; i++) sent.bytes[HEADER + i] = (uint8_t)input_take(&stream->input, 1);
  send_with(stream, &sent);
}

static void any_bytes(struct stream *stream) {
  struct sent sent = {.length = input_below(&stream->input, 64)};
  for (size_t i = 0; i < sent.length; i++) sent.bytes[i] = (uint8_t)input_take(&stream->input, 1);
  send_whole(stream, &sent);
}

// Sends a message of one queue: its number, and one that often lies at a border.
static void of_queue(struct stream *stream) {
  static const uint32_t requests[] = {SET_VRING_NUM,  SET_VRING_BASE, GET_VRING_BASE, SET_VRING_ENABLE,
                                      SET_VRING_KICK, SET_VRING_CALL, SET_VRING_ERR};
  struct sent sent;
  uint32_t request = requests[input_below(&stream->input, 7)];
  uint64_t q = input_below(&stream->input, 2 * QUEUES);
  sent_number(&sent, request, q | input_number(&stream->input) << 32);
  send_with(stream, &sent);
}

// Has a half of the guest's memory come or go, or says so of something else.
static void region(struct stream *stream) {
  struct sent sent;
  unsigned how = input_below(&stream->input, 8);
  sent_region(&stream->connection, &sent, how & 1, how / 2 % 2);
  if (how < 4) {
    send_whole(stream, &sent);
    return;
  }
  size_t field = HEADER + 8 + 8 * (size_t)input_below(&stream->input, 4);
  little_put(sent.bytes + field, input_number(&stream->input), 8);
  send_with(stream, &sent);
}

static void request(struct stream *stream) {
  request_put(&stream->driver, &stream->input);
  for (unsigned q = 0; q < QUEUES; q++) eventfd_write(stream->connection.kick[q], 1);
  connection_pump(&stream->connection);
}

static void pump(struct stream *stream) { connection_pump(&stream->connection); }
static void pass_time(struct stream *stream) { connection_wait(&stream->connection, 100 * input_below(&stream->input, 128)); }

static void (*const steps[])(struct stream *stream) = {send_next, send_next, change,  cut,  other_descriptors, any,      any_bytes,
                                                       of_queue,  skip,      request, pump, region,            pass_time};

int LLVMFuzzerTestOneInput(const uint8_t *data, size_t size);

int LLVMFuzzerTestOneInput(const uint8_t *data, size_t size) {
  static struct stream stream;
  watch_begin(data, size);
  stream.input = (struct input){data, size};
  connection_begin(&stream.connection, way_take(&stream.input));
  driver_begin(&stream.driver, stream.connection.way);
  stream.count = sent_set_up(&stream.connection, stream.set_up);
  stream.next = 0;
  while (stream.input.left && stream.connection.alive) steps[input_below(&stream.input, sizeof steps / sizeof *steps)](&stream);
  // What is left of the set-up, and a request: whatever came before, the session does what it does.
  while (stream.next < stream.count) send_next(&stream);
  connection_pump(&stream.connection);
  request(&stream);
  connection_end(&stream.connection);
  watch_end();
  return 0;
}

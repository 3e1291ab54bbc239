#include "protocol.h"

#include <errno.h>
#include <string.h>
#include <sys/socket.h>
#include <unistd.h>

#include "bytes.h"

void reader_begin(struct reader *reader) {
  reader->have = 0;
  reader->fd_count = 0;
}

void reader_end(struct reader *reader) {
  for (size_t i = 0; i < reader->fd_count; i++) close(reader->fds[i]);
  reader_begin(reader);
}

// Keeps the descriptors that came with some bytes. Returns false where there are too many.
static bool keep_fds(struct reader *reader, struct msghdr *header) {
  bool kept = !(header->msg_flags & MSG_CTRUNC);
  for (struct cmsghdr *it = CMSG_FIRSTHDR(header); it; it = CMSG_NXTHDR(header, it)) {
    if (it->cmsg_level != SOL_SOCKET || it->cmsg_type != SCM_RIGHTS) continue;
    size_t count = (it->cmsg_len - CMSG_LEN(0)) / sizeof(int);
    for (size_t i = 0; i < count; i++) {
      int fd;
      memcpy(&fd, CMSG_DATA(it) + i * sizeof fd, sizeof fd);
      if (reader->fd_count < MOST_FDS) {
        reader->fds[reader->fd_count++] = fd;
      } else {
        close(fd);
        kept = false;
      }
    }
  }
  return kept;
}

static enum read_answer receive(struct reader *reader, int socket, size_t wanted) {
  while (reader->have < wanted) {
    union {
      struct cmsghdr header;
      char room[CMSG_SPACE(MOST_FDS * sizeof(int))];
    } control;
    struct iovec part = {.iov_base = reader->bytes + reader->have, .iov_len = wanted - reader->have};
    struct msghdr header = {.msg_iov = &part, .msg_iovlen = 1, .msg_control = &control, .msg_controllen = sizeof control};
    ssize_t here = recvmsg(socket, &header, MSG_DONTWAIT | MSG_CMSG_CLOEXEC);
    if (here < 0 && errno == EINTR) continue;
    if (here < 0) return errno == EAGAIN || errno == EWOULDBLOCK ? READ_WAITS : READ_ENDED;
    if (!keep_fds(reader, &header) || here == 0) return READ_ENDED;
    reader->have += (size_t)here;
  }
  return READ_MESSAGE;
}

enum read_answer reader_next(struct reader *reader, int socket, struct message *message) {
  if (reader->have < HEADER) {
    enum read_answer answer = receive(reader, socket, HEADER);
    if (answer != READ_MESSAGE) return answer;
  }
  uint32_t flags = (uint32_t)little_get(reader->bytes + 4, 4), size = (uint32_t)little_get(reader->bytes + 8, 4);
  if ((flags & VERSION_MASK) != VERSION || flags & IS_REPLY || size > MOST_PAYLOAD) return READ_ENDED;
  enum read_answer answer = receive(reader, socket, HEADER + size);
  if (answer != READ_MESSAGE) return answer;
  message->request = (uint32_t)little_get(reader->bytes, 4);
  message->flags = flags;
  message->size = size;
  memcpy(message->payload, reader->bytes + HEADER, size);
  memcpy(message->fds, reader->fds, sizeof message->fds);
  message->fd_count = reader->fd_count;
  reader_begin(reader);
  return READ_MESSAGE;
}

bool protocol_reply(int socket, const struct message *message, const uint8_t *payload, size_t size) {
  return protocol_give(socket, message, payload, size, -1);
}

bool protocol_give(int socket, const struct message *message, const uint8_t *payload, size_t size, int descriptor) {
  uint8_t bytes[HEADER + MOST_PAYLOAD];
  union {
    struct cmsghdr header;
    char room[CMSG_SPACE(sizeof descriptor)];
  } control = {.header = {.cmsg_len = CMSG_LEN(sizeof descriptor), .cmsg_level = SOL_SOCKET, .cmsg_type = SCM_RIGHTS}};
  struct iovec part = {.iov_base = bytes, .iov_len = HEADER + size};
  struct msghdr header = {.msg_iov = &part, .msg_iovlen = 1};
  if (size > MOST_PAYLOAD) return false;
  little_put(bytes, message->request, 4);
  little_put(bytes + 4, VERSION | IS_REPLY, 4);
  little_put(bytes + 8, size, 4);
  if (size) memcpy(bytes + HEADER, payload, size);
  if (descriptor >= 0) {
    memcpy(CMSG_DATA(&control.header), &descriptor, sizeof descriptor);
    header.msg_control = &control;
    header.msg_controllen = sizeof control;
  }
  for (;;) {
    ssize_t here = sendmsg(socket, &header, MSG_DONTWAIT | MSG_NOSIGNAL);
    if (here < 0 && errno == EINTR) continue;
    return here == (ssize_t)(HEADER + size);
  }
}

int message_take(struct message *message, size_t which) {
  if (which >= message->fd_count) return -1;
  int fd = message->fds[which];
  message->fds[which] = -1;
  return fd;
}

void message_close(struct message *message) {
  for (size_t i = 0; i < message->fd_count; i++)
    if (message->fds[i] >= 0) close(message->fds[i]);
  message->fd_count = 0;
}

#include "control.h"

#include <errno.h>
#include <stdio.h>
#include <stdlib.h>
#include <string.h>
#include <sys/socket.h>
#include <unistd.h>

#include "blocks.h"
#include "clock.h"
#include "images.h"
#include "names.h"
#include "options.h"
#include "paging.h"
#include "storage.h"

#ifdef DAEMON_CONTROL
#include <jansson.h>

// Milliseconds: how long a request waits for the end of a round, or for what a file lacks; and for the daemon's own device.
enum { WHY = 500, PATIENCE = 5000, BRIEF = 100 };

bool control_is_built(void) { return true; }

// A text, or null. One that isn't UTF-8, as a path may be, has a question mark for each byte that isn't ASCII.
static json_t *text_of(const char *from) {
  char cleaned[MOST_LINE];
  json_t *text = from ? json_string(from) : json_null();
  if (text) return text;
  snprintf(cleaned, sizeof cleaned, "%s", from);
  for (char *at = cleaned; *at; at++)
    if ((unsigned char)*at > 0x7e) *at = '?';
  return json_string(cleaned);
}

// An answer that is an error: its name and what it says.
static json_t *error(const char *name, const char *text) {
  return json_pack("{s:{s:s,s:o}}", "error", "name", name, "text", text_of(text));
}

static json_t *done(void) { return json_pack("{s:{}}", "return"); }

// Finds the disk that words T:L name. Returns false where there is none.
static bool find(const struct disks *disks, const char *words, size_t *which) {
  unsigned target, lun;
  int end = 0;
  if (sscanf(words, "%u:%u%n", &target, &lun, &end) != 2 || words[end]) return false;
  for (*which = 0; *which < disks->count; ++*which)
    if (disks->disks[*which].target == target && disks->disks[*which].lun == lun) return true;
  return false;
}

static struct backend *live(const struct controlled *controlled) {
  struct session *session = controlled->session;
  return session && session->backend.device.live ? &session->backend : NULL;
}

// Returns whether a disk's file lacks what a front end left.
static bool lacks(const struct disk *disk) { return disk->backlog.count || paging_is_left(disk); }

// Returns whether a resize has to wait, since answers do, or since files lack what a front end left.
static bool must_wait(const struct controlled *controlled) {
  const struct backend *backend = live(controlled);
  return backend ? backend->keeps && backend_is_busy(backend) : paging_are_left(controlled->disks);
}

// Adds what a backed disk did with its file.
static void add_pages(json_t *told, const struct paging *paging) {
  if (!paging) return;
  const struct paged *counts = &paging->counts;
  const struct {
    const char *name;
    uint64_t count;
  } all[] = {{"pages-read", counts->read},       {"pages-written", counts->written}, {"flushes", counts->syncs},
             {"pages-asked", counts->asked},     {"pages-handed-in", counts->handed_in}, {"pages-ahead", counts->ahead},
             {"pages-unread", counts->unread},   {"pages-given", counts->given},     {"pages-kept", counts->kept},
             {"pages-failed", counts->failed}};
  for (size_t i = 0; i < sizeof all / sizeof *all; i++) json_object_set_new(told, all[i].name, json_integer((json_int_t)all[i].count));
}

static json_t *stats_of(const struct controlled *controlled, size_t which) {
  const struct disk *disk = &controlled->disks->disks[which];
  struct backend *backend = live(controlled);
  struct vscsi_counts counts = disk->counts;
  int error = paging_error(disk);
  char name[20];
  if (backend) backend_count(backend, which, &counts);
  snprintf(name, sizeof name, "%u:%u", disk->target, disk->lun);
  json_t *told = json_pack("{s:s,s:I,s:o,s:s?,s:I,s:I,s:I,s:I,s:I,s:I,s:I}", "disk", name, "bytes", (json_int_t)(disk->blocks * DEVICE_BLOCK),
                   "file", text_of(disk->path ? disk->path : disk->uri), "error", error ? strerror(error) : NULL, "requests",
                   (json_int_t)counts.left, "task-set-full", (json_int_t)counts.full, "good", (json_int_t)counts.good, "check-condition",
                   (json_int_t)counts.check_conditions, "busy", (json_int_t)counts.busy, "data-out", (json_int_t)counts.data_out,
                   "data-in", (json_int_t)counts.data_in);
  add_pages(told, disk->paging);
  return told;
}

static json_t *stats(const struct controlled *controlled, json_t *arguments) {
  json_t *disks = json_array(), *broken = json_array();
  (void)arguments;
  for (size_t i = 0; i < controlled->disks->count; i++) json_array_append_new(disks, stats_of(controlled, i));
  for (unsigned q = 0; controlled->session && q < controlled->session->backend.count; q++)
    if (controlled->session->backend.queues[q].fault) json_array_append_new(broken, json_integer(q));
  return json_pack("{s:{s:s,s:I,s:b,s:b,s:o,s:o}}", "return", "version", options_version(), "sessions", (json_int_t)controlled->sessions,
                   "front-end", controlled->session != NULL, "device", live(controlled) != NULL, "broken-queues", broken, "disks", disks);
}

// Returns the answer where a disk isn't there that arguments name, or NULL.
static json_t *no_disk(const struct controlled *controlled, json_t *arguments, size_t *which) {
  const char *words;
  if (json_unpack(arguments, "{s:s}", "disk", &words)) return error("BadRequest", "its argument disk is T:L");
  return find(controlled->disks, words, which) ? NULL : error("NoDisk", words);
}

static const char under_way[] = "pages of disks are under way";

static json_t *resize(const struct controlled *controlled, json_t *arguments) {
  char why[WHY];
  json_int_t bytes;
  size_t which;
  json_t *missing = no_disk(controlled, arguments, &which);
  if (missing) return missing;
  bool is_size = !json_unpack(arguments, "{s:I}", "size", &bytes) && bytes > 0 && bytes % DEVICE_BLOCK == 0 &&
                 (uint64_t)bytes / DEVICE_BLOCK <= VSCSI_MOST_BLOCKS;
  if (!is_size) return error("BadSize", "a size is 1 to 2^40 times 512 bytes");
  struct disk *disk = &controlled->disks->disks[which];
  struct backend *backend = live(controlled);
  uint64_t blocks = (uint64_t)bytes / DEVICE_BLOCK;
  bool is_kept = (disk->file >= 0 || disk->server) && !disk->read_only, shrinks = blocks < disk->blocks;
  if (disk->is_protected) return error("BadSize", "with read-only=on a disk has the size of its file");
  if (controlled->disks->moves && !controlled->disks->held) return error("NoDevice", "another daemon may have the file");
  if (!backend && !is_kept) return error("NoDevice", "what isn't kept on a file has another size only while a guest uses it");
  if (disk->server) return error("File", "a disk with nbd= or rbd= stays as long as it is");
  if (disk->is_direct && bytes % PAGE_BYTES) return error("BadSize", "with direct=on a size is a multiple of 4096 bytes");
  if (must_wait(controlled) || (backend ? disk->backlog.count > 0 : lacks(disk))) return error("Busy", "what the guest wrote isn't on the file yet");
  // No write of what the disk loses comes behind it, and no read of that is handed in.
  // What comes in meanwhile may have others go on.
  if (backend) controlled->session->more = true;
  if (backend && disk->is_backed && !backend_settle(backend)) return error("Busy", under_way);
  if (!backend && disk->is_backed && !paging_end_rest(controlled->disks, clock_now() + BRIEF))
    return paging_is_under_way(controlled->disks) ? error("Busy", under_way) : error("NoMemory", "memory was refused");
  // A file is longer before the disk is, and shorter behind it.
  if (!shrinks && !image_resize(disk, blocks, why, sizeof why)) return error("File", why);
  if (backend && !device_resize(&backend->device, disk->target, disk->lun, blocks)) {
    image_resize(disk, disk->blocks, why, sizeof why);
    return error("NoMemory", "memory was refused");
  }
  disk->blocks = blocks;
  if (!backend) store_drop(&controlled->disks->stores[which]);
  return shrinks && !image_resize(disk, blocks, why, sizeof why) ? error("File", why) : done();
}

static json_t *reset(const struct controlled *controlled, json_t *arguments) {
  size_t which;
  json_t *missing = no_disk(controlled, arguments, &which);
  struct backend *backend = live(controlled);
  if (missing) return missing;
  if (!backend) return error("NoDevice", "no guest uses it");
  const struct disk *disk = &controlled->disks->disks[which];
  if (!device_reset(&backend->device, disk->target, disk->lun)) return error("NoMemory", "memory was refused");
  controlled->session->more = true;
  return done();
}

// The answer of a request that waits.
static json_t later;

static json_t *wait_or(bool is_late, const char *text) { return is_late ? error("Busy", text) : &later; }

// Takes the disks back that the daemon's own device has. Returns false, and the answer, where it can't be now.
static bool end_rest(struct disks *disks, bool is_late, json_t **came) {
  if (paging_end_rest(disks, clock_now() + BRIEF)) return true;
  *came = paging_is_under_way(disks) ? wait_or(is_late, under_way) : error("NoMemory", "memory was refused");
  return false;
}

// Adds a disk, unless that has to wait for what is under way, and it isn't late.
static json_t *attach(const struct controlled *controlled, json_t *arguments, int *file, bool is_late) {
  char why[WHY];
  const char *words, *naa = NULL;
  json_t *came;
  struct disks *disks = controlled->disks;
  size_t which;
  if (json_unpack(arguments, "{s:s,s?s}", "disk", &words, "naa", &naa))
    return error("BadRequest", "its argument disk is T:L=SIZE[,..], and naa digits");
  if (controlled->session) return error("InUse", "a front end is there");
  // Those that are there get other indices.
  if (paging_is_under_way(disks)) return wait_or(is_late, under_way);
  if (!end_rest(disks, is_late, &came)) return came;
  if (!disks_add(disks, words, why, sizeof why)) return error("BadDisk", why);
  disks_find(disks, words, &which);
  struct disk *disk = &disks->disks[which];
  bool taken = disks_are_whole(disks) || (snprintf(why, sizeof why, "its target has no LUN 0"), false);
  if (taken && disks->moves && (!disk->path || (disk->read_only && !disk->is_protected)))
    taken = (snprintf(why, sizeof why, "--migratable: each disk has to be kept on a file"), false);
  if (taken && disk->uri) taken = (snprintf(why, sizeof why, "%s=: the daemon has to begin with such a disk", disk->is_rbd ? "rbd" : "nbd"), false);
  if (taken && !disk->path != (*file < 0)) taken = (snprintf(why, sizeof why, "a file, and only that, comes with its descriptor"), false);
  if (taken && disk->path) {
    disk->file = *file;
    *file = -1;
  }
  taken = taken && (!naa || names_give(disks, disk, naa, why, sizeof why)) && (!disk->is_backed || paging_join(disks, disk, why, sizeof why)) &&
          (!disk->path || image_take(disks, disk, why, sizeof why));
  if (taken && (disks->moves || blocks_load(disks, why, sizeof why))) return done();
  disks_remove(disks, which);
  return error("BadDisk", why);
}

// Takes a disk away, unless that has to wait for what its file lacks, which is written meanwhile, or for what is under way, and it isn't
// late.
static json_t *detach(const struct controlled *controlled, json_t *arguments, bool is_late) {
  struct disks *disks = controlled->disks;
  size_t which;
  json_t *missing = no_disk(controlled, arguments, &which);
  if (missing) return missing;
  if (controlled->session) return error("InUse", "a front end is there");
  const struct disk *disk = &disks->disks[which];
  bool is_needed = !disk->lun && which + 1 < disks->count && disk[1].target == disk->target;
  if (is_needed || disks->count == 1) return error("BadDisk", "each target has a LUN 0, and there is a disk");
  if (lacks(disk)) return wait_or(is_late, "its file can't be written");
  if (paging_is_under_way(disks)) return wait_or(is_late, under_way);
  if (!end_rest(disks, is_late, &missing)) return missing;
  if (lacks(disk)) return error("Busy", "its file can't be written");
  disks_remove(disks, which);
  return done();
}

// Does what a line says, or has it wait. Returns its answer, if there is one.
static json_t *answer(struct control *control, const struct controlled *controlled, size_t length) {
  json_error_t fault;
  const char *command;
  json_t *arguments = NULL, *came = NULL;
  bool is_late = clock_now() - control->since >= PATIENCE;
  json_t *request = json_loadb(control->line, length, JSON_REJECT_DUPLICATES, &fault);
  if (!request || json_unpack_ex(request, &fault, JSON_STRICT, "{s:s,s?o}", "execute", &command, "arguments", &arguments))
    came = error("BadRequest", fault.text);
  else if (!strcmp(command, "stats")) came = stats(controlled, arguments);
  else if (!strcmp(command, "reset")) came = reset(controlled, arguments);
  else if (!strcmp(command, "attach")) control->waits = (came = attach(controlled, arguments, &control->file, is_late)) == &later;
  else if (!strcmp(command, "detach")) control->waits = (came = detach(controlled, arguments, is_late)) == &later;
  else if (strcmp(command, "resize")) came = error("NoCommand", command);
  else if (!(control->waits = must_wait(controlled) && !is_late)) came = resize(controlled, arguments);
  json_decref(request);
  return came;
}

// Sends an answer. Returns false where the client doesn't take it.
static bool send_answer(const struct control *control, json_t *came) {
  char *text = json_dumps(came, JSON_COMPACT);
  size_t length = text ? strlen(text) : 0;
  if (text) text[length++] = '\n';
  bool sent = text && send(control->client, text, length, MSG_DONTWAIT | MSG_NOSIGNAL) == (ssize_t)length;
  free(text);
  json_decref(came);
  return sent;
}

// Takes the descriptor that came with some bytes. Others are closed.
static void take_file(struct control *control, struct msghdr *header) {
  for (struct cmsghdr *it = CMSG_FIRSTHDR(header); it; it = CMSG_NXTHDR(header, it)) {
    size_t count = (it->cmsg_len - CMSG_LEN(0)) / sizeof control->file;
    // The room for one is padded, and may have a second one.
    for (size_t i = 0; it->cmsg_level == SOL_SOCKET && it->cmsg_type == SCM_RIGHTS && i < count; i++) {
      if (control->file >= 0) close(control->file);
      memcpy(&control->file, CMSG_DATA(it) + i * sizeof control->file, sizeof control->file);
    }
  }
}

// Reads on. Returns false where the client is gone, or a line is too long.
static bool receive(struct control *control) {
  union {
    struct cmsghdr header;
    char room[CMSG_SPACE(sizeof(int))];
  } rights;
  struct iovec part = {.iov_base = control->line + control->have, .iov_len = MOST_LINE - control->have};
  struct msghdr header = {.msg_iov = &part, .msg_iovlen = 1, .msg_control = &rights, .msg_controllen = sizeof rights};
  ssize_t here = part.iov_len ? recvmsg(control->client, &header, MSG_DONTWAIT | MSG_CMSG_CLOEXEC) : 0;
  if (here < 0) return errno == EAGAIN || errno == EINTR;
  if (here > 0) take_file(control, &header);
  control->have += (size_t)here;
  return here > 0;
}

bool control_serve(struct control *control, const struct controlled *controlled) {
  bool stands = control->waits || receive(control);
  for (char *end; stands && (end = memchr(control->line, '\n', control->have));) {
    size_t length = (size_t)(end - control->line);
    if (!control->waits) control->since = clock_now();
    json_t *came = answer(control, controlled, length);
    if (control->waits) return true;
    stands = send_answer(control, came);
    control->have -= length + 1;
    memmove(control->line, end + 1, control->have);
    if (control->file >= 0) close(control->file);
    control->file = -1;
  }
  if (stands && control->have == MOST_LINE) stands = send_answer(control, error("BadRequest", "a line is too long")) && false;
  if (!stands) control_end(control);
  return stands;
}

void control_begin(struct control *control) {
  *control = (struct control){.client = -1, .file = -1};
  // Before the daemon's limits: it reads random bytes from a file.
  json_object_seed(0);
}
#else
bool control_is_built(void) { return false; }

bool control_serve(struct control *control, const struct controlled *controlled) {
  (void)controlled;
  control_end(control);
  return false;
}

void control_begin(struct control *control) { *control = (struct control){.client = -1, .file = -1}; }
#endif

void control_take(struct control *control, int client) {
  control->client = client;
  control->have = 0;
}

void control_end(struct control *control) {
  if (control->client >= 0) close(control->client);
  if (control->file >= 0) close(control->file);
  control->client = control->file = -1;
  control->have = 0;
  control->waits = false;
}

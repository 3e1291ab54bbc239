#include "options.h"

#include <errno.h>
#include <getopt.h>
#include <limits.h>
#include <stdio.h>
#include <stdlib.h>
#include <string.h>
#include <sys/stat.h>
#include <unistd.h>

#include "backend.h"
#include "cluster.h"
#include "control.h"
#include "export.h"
#include "sandbox.h"
#include "storage.h"

#ifndef VSCSI_DAEMON_VERSION
#define TEXT_OF(number) #number
#define TEXT(number) TEXT_OF(number)
#define VSCSI_DAEMON_VERSION TEXT(VSCSI_VERSION_MAJOR) "." TEXT(VSCSI_VERSION_MINOR) "." TEXT(VSCSI_VERSION_PATCH)
#endif

#define CAPABILITIES_OF "{\"type\": \"scsi\", \"features\": []}\n"

static const char usage[] =
    "vscsi-vhost-user --socket PATH|--fd N --disk T:L=SIZE[,file=PATH|,nbd=URI|,rbd=IMAGE][,rbd-conf=PATH][,rbd-user=NAME][,grow][,snapshot]"
    "[,detect-zeroes=unmap][,write-cache=on|off][,cache-size=SIZE][,direct=on][,rerror=stop][,werror=report][,read-only=on][,profile=narrow|wide][,NAMES] ..\n"
    "A virtio SCSI device for a vhost-user front end.\n"
    "\n"
    "  --socket PATH        listen there (also --socket-path)\n"
    "  --fd N               take the listening or connected socket with this number\n"
    "  --mode OCTAL         the mode of the socket at PATH\n"
    "  --disk T:L=SIZE      a disk at target T and LUN L, of SIZE bytes, or K, M, G or T of them\n"
    "  --disk T:L=file=PATH a disk as long as its file, or with nbd=URI or rbd=IMAGE as its export or its image\n"
    "      file=PATH        keep it on this file or block device; a comma of the path is written twice\n"
    "      grow             make a shorter file as long as SIZE\n"
    "      snapshot         never write the file; what the guest writes is lost at the end\n"
    "      detect-zeroes=unmap  zeros that the guest writes become holes of the file\n"
    "      write-cache=on   read and write the file while the guest runs, and have a part of it in memory alone.\n"
    "                       What the guest hasn't flushed may be lost where the daemon is killed\n"
    "      cache-size=SIZE  have at most SIZE bytes of it in memory, 33M or more; 64M is the default. With\n"
    "                       write-cache=off a WRITE is answered once the file has it\n"
    "      nbd=URI          keep it on an NBD server in place of a file: nbd://HOST[:PORT]/EXPORT, or\n"
    "                       nbd+unix:///EXPORT?socket=PATH; a comma is written twice. write-cache=on is the default\n"
    "      rbd=IMAGE        keep it on an image of a Ceph cluster, likewise: POOL/IMAGE or POOL/NAMESPACE/IMAGE\n"
    "      rbd-conf=PATH, rbd-user=NAME\n"
    "                       have that cluster's configuration from this file, and be this user there: admin is the default\n"
    "      direct=on        read and write it with no cache of the system's (O_DIRECT)\n"
    "      rerror=stop      have a command that needs what can't be read wait, in place of rerror=report: MEDIUM ERROR\n"
    "      werror=report    have a flush of what can't be written end with MEDIUM ERROR, in place of werror=stop: wait\n"
    "      read-only=on     refuse what the guest would write, and open the file for reading alone\n"
    "      profile=narrow   know the commands of the narrow profile alone, in place of profile=wide\n"
    "      serial=TEXT, naa=HEX, vendor=TEXT, product=TEXT, revision=TEXT, physical-block-exp=N, rotation-rate=N,\n"
    "      sense=fixed or sense=descriptor\n"
    "                       name a disk of the wide profile. Without naa= a random one is kept in PATH.naa\n"
    "                       write-cache=, direct= and read-only= take off, too\n"
    "  --queues N           at most N request queues, 1 to 16\n"
    "  --poll               look at the rings of a busy guest all the time, which takes a processor\n"
    "  --poll-max-ns N      look at them for at most N nanoseconds before waiting for a guest, as long as that pays:\n"
    "                       0 to 10000000; 32768 is the default, and 0 is not at all\n"
    "  --migratable         have the files only while a queue runs, so that the guest can move to another daemon\n"
    "  --control PATH       listen there for vscsi-ctl\n"
    "  --user NAME          run as this user once all is open\n"
    "  --group NAME         run as this group\n"
    "  --seccomp on|off     limit what the process may do; on is the default\n"
    "  --log PATH           add lines to this file, in place of standard error\n"
    "  --quiet              say errors alone\n"
    "  --help, --version, --print-capabilities\n";

// Nanoseconds for which rings are looked at: where nothing is said, as QEMU's IOThreads do, and at most.
enum { USUAL_POLL = 32768, LONGEST_POLL = 10000000 };

enum word { SOCKET = 256, FD, MODE, DISK, QUEUES, SHADOW, POLL, POLL_MAX_NS, MIGRATABLE, CONTROL, USER, GROUP, SECCOMP, LOG, QUIET, HELP, VERSION_WORD, CAPABILITIES };

static const struct option known[] = {{"socket", required_argument, NULL, SOCKET},
                                      {"socket-path", required_argument, NULL, SOCKET},
                                      {"fd", required_argument, NULL, FD},
                                      {"mode", required_argument, NULL, MODE},
                                      {"disk", required_argument, NULL, DISK},
                                      {"queues", required_argument, NULL, QUEUES},
                                      {"shadow", no_argument, NULL, SHADOW},
                                      {"poll", no_argument, NULL, POLL},
                                      {"poll-max-ns", required_argument, NULL, POLL_MAX_NS},
                                      {"migratable", no_argument, NULL, MIGRATABLE},
                                      {"control", required_argument, NULL, CONTROL},
                                      {"user", required_argument, NULL, USER},
                                      {"group", required_argument, NULL, GROUP},
                                      {"seccomp", required_argument, NULL, SECCOMP},
                                      {"log", required_argument, NULL, LOG},
                                      {"quiet", no_argument, NULL, QUIET},
                                      {"help", no_argument, NULL, HELP},
                                      {"version", no_argument, NULL, VERSION_WORD},
                                      {"print-capabilities", no_argument, NULL, CAPABILITIES},
                                      {0}};

// Takes a whole word as a number from `least` to `most`; `wanted` says in the operator's words what it has to be.
static bool number(const char *word, int base, long least, long most, const char *wanted, int *found) {
  char *end;
  errno = 0;
  long value = strtol(word, &end, base);
  bool is_number = *word >= '0' && *word <= '9' && !*end && !errno;
  if (!is_number || value < least || value > most) return fprintf(stderr, "%s, not %s\n", wanted, word), false;
  *found = (int)value;
  return true;
}

static bool seccomp(struct options *options, const char *word) {
  options->limits = !strcmp(word, "on");
  if (!options->limits && strcmp(word, "off")) return fprintf(stderr, "--seccomp is on or off, not %s\n", word), false;
  if (options->limits && !sandbox_has_seccomp()) return fputs("--seccomp on: this daemon is built without it\n", stderr), false;
  return true;
}

static bool set_control(struct options *options, const char *path) {
  if (!control_is_built()) return fputs("--control: this daemon is built without it\n", stderr), false;
  options->control = path;
  return true;
}

// Takes one word and what stands behind it.
static bool take(struct options *options, struct disks *disks, int word, char *behind) {
  char why[500];
  int queues, nanoseconds;
  switch (word) {
    case SOCKET: return options->path = behind, true;
    case FD: return number(behind, 10, STDERR_FILENO + 1, INT_MAX, "--fd is the number of a descriptor, 3 or more", &options->fd);
    case MODE: return number(behind, 8, 0, 0777, "--mode is an octal number from 0 to 777", &options->mode);
    case USER: return options->user = behind, true;
    case GROUP: return options->group = behind, true;
    case LOG: return options->log = behind, true;
    case SHADOW: return true;  // of older command lines: there are no modes any more
    case POLL: return options->polling = (struct polling){.most = LONGEST_POLL, .is_fixed = true}, true;
    case POLL_MAX_NS:
      if (!number(behind, 10, 0, LONGEST_POLL, "--poll-max-ns is a number from 0 to 10000000", &nanoseconds)) return false;
      options->polling = (struct polling){.most = (uint64_t)nanoseconds};
      return true;
    case CONTROL: return set_control(options, behind);
    case MIGRATABLE: return disks->moves = true;
    case QUIET: return options->quiet = true;
    case SECCOMP: return seccomp(options, behind);
    case QUEUES:
      if (!number(behind, 10, 1, MOST_REQUEST_QUEUES, "--queues is a number from 1 to 16", &queues)) return false;
      options->queues = (unsigned)queues;
      return true;
    case DISK: return disks_add(disks, behind, why, sizeof why) || (fprintf(stderr, "--disk %s\n", why), false);
    default: return false;
  }
}

// Takes the socket that systemd handed in, where the command line names none.
static void take_activation(struct options *options) {
  const char *process = getenv("LISTEN_PID"), *count = getenv("LISTEN_FDS");
  if (options->path || options->fd >= 0 || !process || !count) return;
  if (strtol(process, NULL, 10) == (long)getpid() && !strcmp(count, "1")) options->fd = STDERR_FILENO + 1;
}

// Returns whether two paths name one file.
static bool is_same(const char *a, const char *b) {
  struct stat first, second;
  return !strcmp(a, b) || (!stat(a, &first) && !stat(b, &second) && first.st_dev == second.st_dev && first.st_ino == second.st_ino);
}

static bool is_whole(const struct options *options, const struct disks *disks) {
  if (!options->path == (options->fd < 0)) return fputs("say one of --socket PATH and --fd N\n", stderr), false;
  if (options->path && options->control && is_same(options->path, options->control))
    return fprintf(stderr, "--control %s: --socket is there\n", options->control), false;
  if (options->mode >= 0 && !options->path) return fputs("--mode is of the socket that --socket makes\n", stderr), false;
  if (!disks_are_whole(disks)) return fputs("there is no disk, or a target without LUN 0\n", stderr), false;
  for (size_t i = 0; i < disks->count; i++) {
    const char *image = disks->disks[i].path;
    bool is_kept = image && (!disks->disks[i].read_only || disks->disks[i].is_protected);
    if (disks->moves && !is_kept) return fputs("--migratable: each disk has to be kept on a file\n", stderr), false;
    if (image && options->log && is_same(image, options->log)) return fprintf(stderr, "--log %s: a disk is kept there\n", image), false;
  }
  return true;
}

const char *options_version(void) { return VSCSI_DAEMON_VERSION; }

static bool print(const char *text) { return fputs(text, stdout) >= 0 && !fflush(stdout); }

enum wanted options_read(struct options *options, struct disks *disks, int count, char **words) {
  int word;
  *options = (struct options){.fd = -1, .mode = -1, .queues = MOST_REQUEST_QUEUES, .limits = true, .polling.most = USUAL_POLL};
  // Other words are of no account then.
  for (int i = 1; i < count; i++)
    if (!strcmp(words[i], "--print-capabilities")) return print(CAPABILITIES_OF) ? WANTED_NOTHING : WANTED_WRONG;
  while ((word = getopt_long(count, words, "", known, NULL)) != -1) {
    if (word == HELP) return print(usage) ? WANTED_NOTHING : WANTED_WRONG;
    if (word == CAPABILITIES) return print(CAPABILITIES_OF) ? WANTED_NOTHING : WANTED_WRONG;
    if (word == VERSION_WORD) {
      const char *built = sandbox_has_seccomp() ? "with seccomp" : "without seccomp";
      const char *ring = storage_is_built() ? "with io_uring" : "without io_uring";
      const char *far = export_is_built() ? "with NBD" : "without NBD";
      const char *loads = cluster_is_built() && storage_is_built() ? "with RBD" : "without RBD";
      bool said = printf("vscsi-vhost-user %s\n%s\n%s\n%s\n%s\n", VSCSI_DAEMON_VERSION, built, ring, far, loads) > 0;
      return said && !fflush(stdout) ? WANTED_NOTHING : WANTED_WRONG;
    }
    if (word == '?' || !take(options, disks, word, optarg)) return fputs("--help says the words\n", stderr), WANTED_WRONG;
  }
  take_activation(options);
  if (optind == count && is_whole(options, disks)) return WANTED_RUN;
  if (optind < count) fprintf(stderr, "%s: no word of the daemon's\n", words[optind]);
  return fputs("--help says the words\n", stderr), WANTED_WRONG;
}

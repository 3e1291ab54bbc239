// A host that loads the library as it runs, and finds each call of vscsi.h there by its name.
//
//     loaded FILE    FILE is the shared library
#include <dlfcn.h>

#define EXAMPLE "loaded"
#include "guest.h"

// The calls, by their names.
#define EACH(of)                                                                                                                 \
  of(vscsi_create) of(vscsi_create_with) of(vscsi_close) of(vscsi_destroy) of(vscsi_settle) of(vscsi_serve) of(vscsi_poke)       \
      of(vscsi_peek) of(vscsi_owed) of(vscsi_status) of(vscsi_broken) of(vscsi_progress) of(vscsi_reset) of(vscsi_resize) of(vscsi_counts) \
          of(vscsi_capacity) of(vscsi_blocks) of(vscsi_changed) of(vscsi_disk_create) of(vscsi_disk_destroy)                     \
              of(vscsi_disk_blocks) of(vscsi_disk_load) of(vscsi_disk_save) of(vscsi_version) of(vscsi_features)                 \
                  of(vscsi_answer_text) of(vscsi_cause_text) of(vscsi_broken_text) of(vscsi_live_create) of(vscsi_map)           \
                      of(vscsi_live_serve) of(vscsi_live_owed) of(vscsi_live_status) of(vscsi_live_broken) of(vscsi_live_reset)  \
                          of(vscsi_live_resize) of(vscsi_live_counts) of(vscsi_live_capacity) of(vscsi_live_blocks)              \
                              of(vscsi_live_changed) of(vscsi_live_close) of(vscsi_live_destroy) of(vscsi_live_ask) of(vscsi_log)     \
                                  of(vscsi_position) of(vscsi_live_position) of(vscsi_disk_create_backed) of(vscsi_live_wanted)       \
                                      of(vscsi_live_load) of(vscsi_live_load_failed) of(vscsi_live_give) of(vscsi_live_written)   \
                                          of(vscsi_live_wake) of(vscsi_live_lost) of(vscsi_live_denied)

#define FIELD(name) __typeof__(&name) name;
#define LOAD(name) library.name = (__typeof__(&name))found(handle, #name);

static struct {
  EACH(FIELD)
} library;

static unsigned calls;

static void *found(void *handle, const char *name) {
  void *at = dlsym(handle, name);
  if (!at) {
    fprintf(stderr, "loaded: %s\n", dlerror());
    exit(1);
  }
  calls++;
  return at;
}

static void done(const char *call, enum vscsi_answer answer) {
  if (answer == VSCSI_DONE) return;
  fprintf(stderr, "loaded: %s: %s\n", call, library.vscsi_answer_text(answer));
  exit(1);
}

int main(int count, char **words) {
  void *handle = count == 2 ? dlopen(words[1], RTLD_NOW | RTLD_LOCAL) : NULL;
  if (!handle) {
    fprintf(stderr, "loaded: %s\n", count == 2 ? dlerror() : "no library");
    return 1;
  }
  EACH(LOAD)
  if (library.vscsi_version() >> 16 != VSCSI_VERSION_MAJOR) {
    fprintf(stderr, "loaded: the library has another major version\n");
    return 1;
  }

  struct vscsi device = {0};
  const struct vscsi_unit unit = {.blocks = 1000, .calm = 1};
  struct vscsi_config config = config_of(&unit, 1);
  config.features &= library.vscsi_features();
  config.pages = 0;
  struct vscsi_fault fault;
  uint64_t blocks;
  bool more;
  if (library.vscsi_create(&device, &config, &fault) != VSCSI_BAD_CONFIG) return 1;
  printf("refused: %s\n", library.vscsi_cause_text(fault.cause));
  config.pages = MEMORY / VSCSI_PAGE;
  done("create", library.vscsi_create(&device, &config, &fault));

  // a queue whose available index ran too far ahead
  done("poke", library.vscsi_poke(&device, layout[2].driver + 2, "\x09", 1));
  done("serve", library.vscsi_serve(&device, 1u << 2, 100, NULL, &more));
  uint32_t broken;
  done("broken", library.vscsi_broken(&device, 2, &broken));
  printf("queue 2: %s\n", library.vscsi_broken_text(broken));
  done("capacity", library.vscsi_capacity(&device, 0, 0, &blocks));
  printf("blocks: %u\n", (unsigned)blocks);
  done("destroy", library.vscsi_destroy(&device));
  printf("destroyed twice: %s\n", library.vscsi_answer_text(library.vscsi_destroy(&device)));

  // a disk goes through a device, and grows there
  struct vscsi_disk disk = {0};
  done("disk_create", library.vscsi_disk_create(&disk, unit.blocks));
  done("create_with", library.vscsi_create_with(&device, &config, &disk, NULL));
  done("resize", library.vscsi_resize(&device, 0, 0, 2000));
  done("close", library.vscsi_close(&device, &disk, 1));
  done("disk_blocks", library.vscsi_disk_blocks(&disk, &blocks));
  printf("the disk has %u blocks\n", (unsigned)blocks);
  done("disk_destroy", library.vscsi_disk_destroy(&disk));
  printf("calls: %u\n", calls);
  return dlclose(handle) ? 1 : 0;
}

// Linked into a daemon that has the C library inside, and into no other.
#include <nss.h>

// Has users and groups looked up in /etc/passwd and /etc/group alone. Other services are shared libraries of the system's own C library,
// which a static program can't load.
__attribute__((constructor)) static void look_up_in_files(void) {
  __nss_configure_lookup("passwd", "files");
  __nss_configure_lookup("group", "files");
  __nss_configure_lookup("initgroups", "files");
}

// What few rounds call. It isn't inline: each round would save its registers, and guard its stack, for it.
#ifndef DAEMON_RARE_H
#define DAEMON_RARE_H

#define RARE __attribute__((noinline, cold))

#endif

/* A chain of a queue, answered once, for whoever looks at each access of guest memory meanwhile. */
#include "bus_tests.h"

#include <string.h>

enum { SIZE = 256, NEXT = 1, WRITE = 2, AVAIL = 1 << 7 };

/* Where the queue lies, as bus_tests has it, and behind it the bytes of a chain. */
enum { DESC = 0x10000, DRIVER = 0x12000, DEVICE = 0x13000, OUT = 0x14000, IN = 0x15000, END = 0x16000 };

enum { HEAD = 51, DATA = 512, ANSWER = HEAD + DATA };

static _Alignas(4096) uint8_t memory[END];

/* Written before the device is called, and behind that. */
static volatile uint64_t mark;

/* What stands behind a descriptor's length: of a split one its flags and the next, of a packed one its number and its flags. */
static void put_descriptor(bool packed, unsigned place, uint64_t addr, uint32_t len, uint16_t flags)
{
	const uint16_t last[] = { packed ? 0 : flags, packed ? flags | AVAIL : (uint16_t)(place + 1) };
	unsigned char *it = memory + DESC + 16 * place;

	memcpy(it, &addr, 8);
	memcpy(it + 8, &len, 4);
	memcpy(it + 12, last, 4);
}

/* Two descriptors that the device reads, and one that it writes. A packed queue's driver area asks for notifications by zeros. */
static void put_chain(bool packed)
{
	const uint16_t index = 1;

	put_descriptor(packed, 0, OUT, HEAD, NEXT);
	put_descriptor(packed, 1, OUT + HEAD, DATA, NEXT);
	put_descriptor(packed, 2, IN, ANSWER, WRITE);
	if (!packed)
		memcpy(memory + DRIVER + 2, &index, 2);
}

int main(int count, char **words)
{
	const struct bus_region region = { 0, sizeof memory, memory };
	struct bus_map *map = mapped(&region, 1);
	bool packed = count > 1 && !strcmp(words[1], "packed");
	struct echoed echoed;

	for (unsigned i = 0; i < ANSWER; i++)
		memory[OUT + i] = (uint8_t)(i * 7 + 1);
	put_chain(packed);
	printf("%p %p\n", (void *)memory, (void *)&mark);
	fflush(stdout);
	mark = 1;
	bus_echo(handle(map), packed, 1, 1, &echoed);
	mark = 2;
	if (echoed.chains != 1 || echoed.faults)
		FAIL("%llu chains, %llu faults", (unsigned long long)echoed.chains, (unsigned long long)echoed.faults);
	if (memcmp(memory + IN, memory + OUT, ANSWER))
		FAIL("the answer differs");
	bus_unmap(map);
	return 0;
}

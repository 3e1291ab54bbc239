"""A vhost-user front end in a few lines, with a driver of one request queue: for tests that start the daemon as a user does."""

import mmap
import os
import socket
import struct

# Messages of vhost-user, and features.
SET_FEATURES, SET_OWNER, SET_MEM_TABLE, SET_VRING_NUM, SET_VRING_ADDR, SET_VRING_BASE, SET_VRING_KICK = 2, 3, 5, 8, 9, 10, 12
GET_VRING_BASE = 11
GET_FEATURES = 1
VERSION_1 = 1 << 32

# The guest's memory, by its own addresses, which the front end has, too: the ring's areas, requests, and their data.
MEMORY, DESCRIPTORS, AVAILABLE, USED, REQUESTS, DATA = 1 << 20, 0x1000, 0x2000, 0x3000, 0x10000, 0x40000
QUEUE, SIZE, BLOCK, HEAD, RESPONSE = 2, 64, 512, 51, 108
# How many requests have a place of their own; the next one takes the first one's.
PLACES = 192


class FrontEnd:
    """A front end over a connected socket. Queue 2 is set up, and its memory is shared."""

    def __init__(self, connection, count=0):
        """With a count the guest goes on behind so many requests."""
        self.connection, self.count = connection, count
        descriptor = os.memfd_create("guest")
        os.ftruncate(descriptor, MEMORY)
        self.memory = mmap.mmap(descriptor, MEMORY)
        self.kick = os.eventfd(0)
        self.say(SET_OWNER)
        self.say(SET_FEATURES, struct.pack("<Q", VERSION_1))
        self.say(SET_MEM_TABLE, struct.pack("<IIQQQQ", 1, 0, 0, MEMORY, 0, 0), [descriptor])
        for ring in (AVAILABLE, USED):
            self.memory[ring + 2 : ring + 4] = struct.pack("<H", count)
        self.start(count)
        os.close(descriptor)

    def __enter__(self):
        return self

    def __exit__(self, *_):
        self.connection.close()
        os.close(self.kick)
        self.memory.close()

    def say(self, request, payload=b"", descriptors=()):
        """Sends a message."""
        socket.send_fds(self.connection, [struct.pack("<III", request, 1, len(payload)) + payload], list(descriptors))

    def start(self, base):
        """Has the queue begin at an index."""
        self.say(SET_VRING_NUM, struct.pack("<II", QUEUE, SIZE))
        self.say(SET_VRING_BASE, struct.pack("<II", QUEUE, base))
        self.say(SET_VRING_ADDR, struct.pack("<IIQQQQ", QUEUE, 0, DESCRIPTORS, USED, AVAILABLE, 0))
        self.say(SET_VRING_KICK, struct.pack("<Q", QUEUE), [self.kick])

    def stop(self):
        """Stops the queue, and gives the index where it goes on."""
        self.say(GET_VRING_BASE, struct.pack("<II", QUEUE, 0))
        return struct.unpack("<IIIII", self.connection.recv(20))[4]

    def asks(self):
        """Asks for the daemon's features, and waits for them."""
        self.say(GET_FEATURES)
        return struct.unpack("<IIIQ", self.connection.recv(20))[3]

    def put(self, block, data=b"", lun=0, writable=0):
        """Makes a request of a disk of target 0 available, with these data, or room for so many bytes, and kicks. A request takes three
        descriptors.
        """
        number, first = self.count % PLACES, 3 * (self.count % (SIZE // 4))
        at, room = REQUESTS + 0x200 * number, DATA + 0x1000 * number
        self.memory[at : at + HEAD] = (bytes([1, 0, 0x40, lun]) + bytes(15) + block).ljust(HEAD, b"\0")
        self.memory[room : room + len(data)] = data
        parts = ((at, HEAD, 1, first + 1), (room, len(data), 1, first + 2), (at + 0x100, RESPONSE, 2, 0))
        if writable:
            parts = ((at, HEAD, 1, first + 1), (at + 0x100, RESPONSE, 3, first + 2), (room, writable, 2, 0))
        for place, part in enumerate(parts, first):
            self.memory[DESCRIPTORS + 16 * place : DESCRIPTORS + 16 * place + 16] = struct.pack("<QIHH", *part)
        entry = AVAILABLE + 4 + 2 * (self.count % SIZE)
        self.memory[entry : entry + 2] = struct.pack("<H", first)
        self.count += 1
        self.memory[AVAILABLE + 2 : AVAILABLE + 4] = struct.pack("<H", self.count & 0xFFFF)
        os.eventfd_write(self.kick, 1)

    def write(self, lba, data, lun=0, fua=False):
        """Makes a WRITE available."""
        self.put(struct.pack(">BBIBHB", 0x2A, 8 * fua, lba, 0, len(data) // BLOCK, 0), data, lun)

    def read(self, lba, length, lun=0, fua=False):
        """Makes a READ available."""
        self.put(struct.pack(">BBIBHB", 0x28, 8 * fua, lba, 0, length // BLOCK, 0), lun=lun, writable=length)

    def flush(self, lun=0):
        """Makes a SYNCHRONIZE CACHE available."""
        self.put(struct.pack(">BBIBHB", 0x35, 0, 0, 0, 0, 0), lun=lun)

    def status(self, number):
        """The status of a request that was answered."""
        return self.memory[REQUESTS + 0x200 * (number % PLACES) + 0x100 + 10]

    def sense(self, number):
        """The sense data of a request that was answered."""
        at = REQUESTS + 0x200 * (number % PLACES) + 0x100 + 12
        return self.memory[at : at + 18]

    def data(self, number, length):
        """The data of a READ."""
        at = DATA + 0x1000 * (number % PLACES)
        return self.memory[at : at + length]

    def refused_unmap(self):
        """Makes an UNMAP available that has more descriptors than are taken, so that the library tells of any block."""
        length = 8 + 65 * 16
        self.put(struct.pack(">BBIBHB", 0x42, 0, 0, 0, length, 0), struct.pack(">HHI", length - 2, length - 8, 0).ljust(length, b"\0"))

    def answered(self):
        """How many requests were answered."""
        return struct.unpack("<H", self.memory[USED + 2 : USED + 4])[0]

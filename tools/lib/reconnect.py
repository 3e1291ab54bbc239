"""Stands between QEMU and the daemon, and connects to the next daemon where one dies, as a QEMU does that can (8.2).

It keeps what the front end said of its memory and of its queues, with the descriptors, and the daemon's memory of INFLIGHT_SHMFD, and
says all of it to the next one.
"""

import os
import select
import socket
import struct
import threading
import time

HEADER = struct.Struct("<III")
NEEDS_REPLY, MOST_FDS = 8, 16
SET_FEATURES, SET_OWNER, SET_MEM_TABLE, SET_VRING_NUM, SET_VRING_ADDR, SET_VRING_BASE, GET_VRING_BASE = 2, 3, 5, 8, 9, 10, 11
SET_VRING_KICK, SET_VRING_CALL, SET_VRING_ERR, SET_PROTOCOL_FEATURES, SET_VRING_ENABLE = 12, 13, 14, 16, 18
GET_INFLIGHT_FD, SET_INFLIGHT_FD, ADD_MEM_REG, REM_MEM_REG = 31, 32, 37, 38
OF_QUEUES = (SET_VRING_NUM, SET_VRING_BASE, SET_VRING_ADDR, SET_VRING_CALL, SET_VRING_ERR, SET_VRING_KICK, SET_VRING_ENABLE)
OF_ALL = (SET_OWNER, SET_PROTOCOL_FEATURES, SET_FEATURES, SET_INFLIGHT_FD, SET_MEM_TABLE)


def take(connection):
    """The next message: its request, its flags, its payload and its descriptors; None where the other end is gone."""
    head, fds, _, _ = socket.recv_fds(connection, HEADER.size, MOST_FDS)
    while head and len(head) < HEADER.size:
        head += connection.recv(HEADER.size - len(head))
    if not head:
        return None
    request, flags, size = HEADER.unpack(head)
    payload = b""
    while len(payload) < size:
        payload += connection.recv(size - len(payload))
    return request, flags, payload, fds


def give(connection, request, flags, payload, fds=()):
    """Sends a message. A daemon that is gone is found as it is read."""
    try:
        socket.send_fds(connection, [HEADER.pack(request, flags, len(payload)) + payload], list(fds))
    except OSError:
        pass


class Reconnect:
    """Listens at one path, and connects to the daemon at another."""

    def __init__(self, path, daemon):
        self.daemon, self.count, self.said, self.regions = str(daemon), 0, {}, {}
        self.listener = socket.socket(socket.AF_UNIX)
        self.listener.bind(str(path))
        self.listener.listen(1)
        threading.Thread(target=self.serve, daemon=True).start()

    def keep(self, request, flags, payload, fds):
        """Keeps what another daemon has to be told."""
        kept = (request, flags & ~NEEDS_REPLY, payload, fds)
        if request in OF_ALL:
            self.said[request] = kept
        elif request in (SET_VRING_ENABLE, SET_VRING_NUM, SET_VRING_ADDR, SET_VRING_BASE, SET_VRING_KICK, SET_VRING_CALL, SET_VRING_ERR):
            self.said[request, payload[0]] = kept
        elif request == GET_VRING_BASE:
            self.said.pop((SET_VRING_KICK, payload[0]), None)
        elif request == ADD_MEM_REG:
            self.regions[payload[8:32]] = kept
        elif request == REM_MEM_REG:
            self.regions.pop(payload[8:32], None)

    def connect(self):
        """Connects to the daemon that is there now, or comes."""
        while True:
            connection = socket.socket(socket.AF_UNIX)
            if connection.connect_ex(self.daemon) == 0:
                self.count += 1
                return connection
            connection.close()
            time.sleep(0.02)

    def repeat(self, connection):
        """Says all to another daemon."""
        for request in OF_ALL:
            if request in self.said:
                give(connection, *self.said[request])
        for kept in self.regions.values():
            give(connection, *kept)
        for request in OF_QUEUES:
            for queue in sorted(key[1] for key in self.said if isinstance(key, tuple) and key[0] == request):
                if (SET_VRING_KICK, queue) in self.said:
                    give(connection, *self.said[request, queue])

    def serve(self):
        front, _ = self.listener.accept()
        back = self.connect()
        give(back, GET_INFLIGHT_FD, 1, bytes(20))
        _, _, payload, fds = take(back)
        self.said[SET_INFLIGHT_FD] = (SET_INFLIGHT_FD, 1, payload, fds)
        while True:
            for ready in select.select([front, back], [], [])[0]:
                try:
                    message = take(ready)
                except OSError:
                    message = None
                if message is None and ready is front:
                    back.close()
                    return
                if message is None:
                    back.close()
                    back = self.connect()
                    self.repeat(back)
                    break
                give(back if ready is front else front, *message)
                if ready is front:
                    self.keep(*message)
                else:
                    for fd in message[3]:
                        os.close(fd)

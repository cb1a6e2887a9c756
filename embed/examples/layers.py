"""The layers in front of a service in Python, by ctypes. usage: layers.py LIBRARY PORT QUERIES"""
import ctypes as c
import socket
import sys
import time

DONE, REPLY, NOTHING, ASK = 0, 1, 2, 3


class Handle(c.Structure):
    """One word: null, or a block that it owns."""
    _fields_ = [("at", c.c_void_p)]


class Origin(c.Structure):
    """Where a message came from, when, and over what."""
    _fields_ = [("at", c.c_uint64), ("secs", c.c_uint64), ("size", c.c_uint64), ("octets", c.c_uint8 * 16),
                ("port", c.c_uint16), ("family", c.c_uint8), ("over", c.c_uint8)]


class Rule(c.Structure):
    """The rule by which the reply to one request is rewritten."""
    _fields_ = [("id", c.c_uint16), ("limit", c.c_uint16), ("keepalive", c.c_uint16), ("flags", c.c_uint8 * 6)]


class Layers:
    """Settings of the layers, and a buffer for replies. Each object of a raw call is a pointer and the number 1."""

    def __init__(self, path):
        self.lib = c.CDLL(path)
        octets, size = c.c_char_p, c.c_size_t
        self.lib.nutscythe_raw_settings_new.argtypes = [c.c_bool, c.c_bool, c.POINTER(Handle), size]
        self.lib.nutscythe_raw_settings_cookies.argtypes = [c.POINTER(Handle), size, octets, size]
        self.lib.nutscythe_raw_free.argtypes = [c.POINTER(Handle), size]
        self.lib.nutscythe_raw_datagram.argtypes = [
            c.POINTER(Handle), size, c.POINTER(Origin), size, c.c_uint32, octets, size, c.c_void_p, size,
            c.POINTER(size), size, c.POINTER(Rule), size]
        self.lib.nutscythe_raw_rewrite.argtypes = [
            c.POINTER(Rule), size, octets, size, c.c_void_p, size, c.POINTER(size), size]
        self.settings, self.rule = Handle(), Rule()
        self.reply, self.length = c.create_string_buffer(65536), size()
        if self.lib.nutscythe_raw_settings_new(True, True, self.settings, 1) != DONE:
            raise MemoryError
        if self.lib.nutscythe_raw_settings_cookies(self.settings, 1, b"0123456789abcdef", 16) != DONE:
            raise ValueError

    def answer(self, message, address, serve):
        """The octets to send for a datagram, or None. serve gives the service's reply."""
        octets = (c.c_uint8 * 16)(*socket.inet_aton(address[0]))
        origin = Origin(int(time.monotonic() * 1000), int(time.time()), 0, octets, address[1], 4, 0)
        status = self.lib.nutscythe_raw_datagram(self.settings, 1, origin, 1, 1, message, len(message), self.reply, 65536,
                                                 self.length, 1, self.rule, 1)
        if status == ASK:
            made = serve(message)
            status = self.lib.nutscythe_raw_rewrite(self.rule, 1, made, len(made), self.reply, 65536, self.length, 1)
        return self.reply.raw[:self.length.value] if status == REPLY else None

    def close(self):
        """Lets go of the settings."""
        self.lib.nutscythe_raw_free(self.settings, 1)


def serve(message):
    """NXDOMAIN to a query of one plain question."""
    end = 12
    while message[end]:
        end += message[end] + 1
    return message[:2] + bytes([message[2] & 0x79 | 0x84, 3]) + message[4:6] + bytes(6) + message[12:end + 5]


def main():
    """Serves that many queries, or until none came for 10 s."""
    layers = Layers(sys.argv[1])
    link = socket.socket(socket.AF_INET, socket.SOCK_DGRAM)
    link.bind(("127.0.0.1", int(sys.argv[2])))
    link.settimeout(10)
    for _ in range(int(sys.argv[3])):
        try:
            message, address = link.recvfrom(65535)
        except TimeoutError:
            break
        reply = layers.answer(message, address, serve)
        if reply is not None:
            link.sendto(reply, address)
    layers.close()


main()

"""Sends hostile messages to the server in C: half of them as datagrams, and the others as frames over connections.

usage: send.py PORT FILE (FILE: messages, each after its length in two octets)

Each datagram of 12 octets or more must get one answer with its identifier. A connection carries many frames, and a frame shorter
than a header at its end, while there are such frames: the server closes it. What comes back over connections is counted; the server
drops what its queue and its response budget have no room for. It ends with 1 if a datagram's answer is missing.
"""
import contextlib
import select
import socket
import sys

HEADER = 12
# How many datagrams, and octets of them, are on their way at most; how many frames a connection carries; how long an answer may take.
WINDOW, OCTETS, FRAMES, WAIT = 16, 65536, 200, 60
# The most octets of a datagram over IPv4.
DATAGRAM_MOST = 65507


def messages(path):
    """The messages of a file."""
    with open(path, "rb") as it:
        while len(head := it.read(2)) == 2:
            yield it.read(int.from_bytes(head, "big"))


def windows(found):
    """Datagrams that may be on their way together."""
    window, size = [], 0
    for message in found:
        if window and (len(window) == WINDOW or size + len(message) > OCTETS):
            yield window
            window, size = [], 0
        window.append(message[:DATAGRAM_MOST])
        size += len(message)
    yield window


def datagrams(address, found):
    """Sends datagrams, and gives how many were answered."""
    answered = 0
    with contextlib.closing(socket.socket(socket.AF_INET, socket.SOCK_DGRAM)) as link:
        link.settimeout(WAIT)
        for window in windows(found):
            for message in window:
                link.sendto(message, address)
            wanted = sorted(message[:2] for message in window if len(message) >= HEADER)
            got = sorted(link.recv(65536)[:2] for _ in wanted)
            if got != wanted:
                sys.exit(f"answers {[it.hex() for it in got]} to {[it.hex() for it in wanted]}")
            answered += len(got)
    return answered


def framed(found):
    """Messages, each after its length."""
    return b"".join(len(message).to_bytes(2, "big") + message for message in found)


def frames(octets):
    """How many whole frames octets are."""
    at, count = 0, 0
    while at + 2 <= len(octets) and at + 2 + int.from_bytes(octets[at:at + 2], "big") <= len(octets):
        at, count = at + 2 + int.from_bytes(octets[at:at + 2], "big"), count + 1
    return count


def connection(address, stream):
    """Sends a stream over a connection in pieces, and gives how many frames came back until the server closed it."""
    got, at = bytearray(), 0
    with contextlib.closing(socket.create_connection(address, WAIT)) as link, contextlib.suppress(ConnectionError):
        while True:
            reads, writes, _ = select.select([link], [link] if at < len(stream) else [], [], WAIT)
            if reads:
                piece = link.recv(65536)
                if not piece:
                    break
                got += piece
            elif writes:
                at += link.send(stream[at:at + 1399])
                if at == len(stream):
                    link.shutdown(socket.SHUT_WR)
            else:
                sys.exit("the server doesn't close a connection")
    return frames(got)


def main():
    """Datagrams first."""
    address, found = ("127.0.0.1", int(sys.argv[1])), list(messages(sys.argv[2]))
    half = len(found) // 2
    print(f"{half} datagrams, {datagrams(address, found[:half])} answers", flush=True)
    whole = [message for message in found[half:] if len(message) >= HEADER]
    short = [message for message in found[half:] if len(message) < HEADER]
    links = [framed(whole[at:at + FRAMES] + short[i:i + 1]) for i, at in enumerate(range(0, len(whole), FRAMES))]
    answers = sum(connection(address, stream) for stream in links)
    print(f"{len(whole) + min(len(short), len(links))} frames over {len(links)} connections, {answers} answers")


main()

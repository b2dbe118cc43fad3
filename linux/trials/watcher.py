#!/usr/bin/env python3
"""Counts the groups that Join/Prunes join on a link; for beside_frr.

    watcher.py INTERFACE SENDER COUNT SECONDS

It prints `ready` once it watches, and at the end how many different groups the sender joined, and when the last of them
came, in seconds since 1970: once there are COUNT, or after so many seconds.
"""
import socket
import struct
import sys
import time
from collections.abc import Iterator

PIM = 103
SO_RCVBUFFORCE, SO_TIMESTAMPNS = 33, 35


def joined(packet: bytes) -> Iterator[bytes]:
    """The groups that a Join/Prune joins."""
    message = packet[(packet[0] & 15) * 4:]
    if packet[9] != PIM or message[0] != 0x23:
        return
    at = 14
    for _ in range(message[11]):
        joins, prunes = struct.unpack("!HH", message[at + 8:at + 12])
        if joins:
            yield message[at + 4:at + 8]
        at += 12 + 8 * (joins + prunes)


def main() -> None:
    interface, sender, count, patience = (
        sys.argv[1],
        socket.inet_aton(sys.argv[2]),
        int(sys.argv[3]),
        float(sys.argv[4]),
    )
    link = socket.socket(socket.AF_PACKET, socket.SOCK_DGRAM, socket.htons(0x0800))
    link.setsockopt(socket.SOL_SOCKET, SO_RCVBUFFORCE, 64 << 20)
    link.setsockopt(socket.SOL_SOCKET, SO_TIMESTAMPNS, 1)
    link.bind((interface, 0x0800))
    link.settimeout(0.5)
    print("ready", flush=True)
    end, groups, last = time.monotonic() + patience, set(), 0.0
    while len(groups) < count and time.monotonic() < end:
        try:
            packet, [(_, _, moment)], _, _ = link.recvmsg(65535, socket.CMSG_SPACE(16))
        except socket.timeout:
            continue
        if packet[12:16] != sender:
            continue
        new = set(joined(packet)) - groups
        groups |= new
        # As the kernel had it, however late it is read.
        seconds, nanoseconds = struct.unpack("@qq", moment)
        last = seconds + nanoseconds / 1e9 if new else last
    print(f"joined {len(groups)} at {last}")


if __name__ == "__main__":
    main()

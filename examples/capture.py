#!/usr/bin/env python3
"""Writes a capture (pcap) of what a trace tells that its motes heard: a UDP datagram on 127.0.0.1 for each `frame` line, at its moment,
to the port of its mote.

    capture.py PROFILE <TRACE >CAPTURE

The sender's port is that of the mote that the frame names as its source. Wireshark reads the capture (`deluge.lua`).
"""
import re
import struct
import sys

LINKTYPE_RAW = 101
LOOPBACK = bytes([127, 0, 0, 1])


def sum_of(data):
    """The checksum of an IPv4 header."""
    total = sum(struct.unpack("!%dH" % (len(data) // 2), data))
    while total >> 16:
        total = (total & 0xFFFF) + (total >> 16)
    return ~total & 0xFFFF


def datagram(source, to, frame):
    """An IPv4 packet. Its UDP header has no checksum."""
    udp = struct.pack("!HHHH", source, to, 8 + len(frame), 0) + frame
    head = struct.pack("!BBHHHBBH", 0x45, 0, 20 + len(udp), 0, 0, 64, 17, 0) + LOOPBACK + LOOPBACK
    return head[:10] + struct.pack("!H", sum_of(head)) + head[12:] + udp


def main():
    with open(sys.argv[1]) as profile:
        port = int(re.search(r"^port *= *(\d+)", profile.read(), re.M).group(1))
    out = sys.stdout.buffer
    out.write(struct.pack("<IHHiIII", 0xA1B2C3D4, 2, 4, 0, 0, 65535, LINKTYPE_RAW))
    moment = 0
    for line in sys.stdin:
        words = line.split()
        if not words or words[0] not in ("reset", "tick", "frame"):
            continue
        moment += int(words[2])
        if words[0] != "frame":
            continue
        frame = bytes.fromhex(words[4].split(":")[1])
        source = int.from_bytes(frame[1:3], "big") if len(frame) > 2 else 0
        packet = datagram((port + source) & 0xFFFF, port + int(words[1]), frame)
        out.write(struct.pack("<IIII", moment // 1000, moment % 1000 * 1000, len(packet), len(packet)) + packet)


main()

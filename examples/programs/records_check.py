"""Reads the log as a program does at its start: up to the first record that is not whole. All that were told have to be there."""

import os
import struct
import sys
import zlib

told, found, at = len(sys.stdin.readlines()), 0, 0
data = open("log", "rb").read() if os.path.exists("log") else b""
while at + 8 <= len(data):
    length, check = struct.unpack_from("<II", data, at)
    record = data[at + 8 : at + 8 + length]
    if len(record) < length or zlib.crc32(record) != check or record != f"record {found + 1}".encode() * (found + 1):
        break
    found, at = found + 1, at + 8 + length
sys.exit(None if told <= found <= told + 1 else f"{told} records were told, and {found} are there")

"""Appends records to a log, each with its length and a checksum, and says of each that it is written.

    python3 records.py            without an fsync
    python3 records.py fsync      with an fsync behind each record
"""

import os
import struct
import sys
import zlib

with open("log", "ab", buffering=0) as log:
    for number in range(1, 5):
        data = f"record {number}".encode() * number
        log.write(struct.pack("<II", len(data), zlib.crc32(data)) + data)
        if "fsync" in sys.argv:
            os.fsync(log.fileno())
        print(f"wrote {number}", flush=True)

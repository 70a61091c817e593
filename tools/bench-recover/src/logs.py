#!/usr/bin/env python3
"""Writes the logs of a store: logs.py FOLDER LOGS KEYS RECORDS. Each record puts a column of 32 bytes to one of KEYS keys of
16 bytes of tenant 7; a batch has 1,024 of them; what is stamped goes to the logs in turn."""
import random
import struct
import sys
from pathlib import Path

folder, logs, keys, records = Path(sys.argv[1]), *map(int, sys.argv[2:5])
folder.mkdir(parents=True, exist_ok=True)
random.seed(7)
names = [random.randbytes(16) for _ in range(keys)]
ends = [0] * logs
files = [open(folder / f"wal-{log:02}", "wb") for log in range(logs)]
for log, file in enumerate(files):
    file.write(b"MTLOG\x02" + bytes([log, logs]))
waiting = [[] for _ in range(logs)]


def flush(log, to):
    body = b"\x02" + struct.pack(">QQI", ends[log], to, len(waiting[log])) + b"".join(waiting[log])
    files[log].write(b"\x01" + struct.pack(">I", len(body)) + body)
    ends[log], waiting[log] = to, []


for stamp in range(1, records + 1):
    log = stamp % logs
    key = names[stamp - 1] if stamp <= keys else random.choice(names)
    waiting[log].append(struct.pack(">QIH", stamp, 7, 16) + key + b"\x01\x01" + struct.pack(">H", 32) + random.randbytes(32))
    if len(waiting[log]) == 1024:
        flush(log, stamp)
for log in range(logs):
    flush(log, records)
    files[log].write(b"\x00")
    files[log].close()

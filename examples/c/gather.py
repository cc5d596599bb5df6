"""A list of jobs as a loop of calls, as gather.c: a packet is put together from pieces that lie in different places of
the program, each job after the one before, up to the first that does not end well.

    KAZOVUNI=PREFIX/lib/libkazovuni.so python3 gather.py
"""
from functools import partial

from kazovuni import compare_alike, fill, move

header, payload, padding, trailer = b"from here on: ", bytearray(b"x" * 100), 10, b"end."
packet = bytearray(len(header) + len(payload) + padding + len(trailer))
whole = memoryview(packet)
text, end = whole[len(header):][:len(payload)], whole[-len(trailer):]
jobs = [
    partial(move, header, whole[:len(header)]),
    partial(move, payload, text),
    partial(fill, 0x2e2e2e2e2e2e2e2e, whole[len(header) + len(payload):][:padding]),
    partial(move, trailer, end),
    partial(compare_alike, payload, text),
    partial(compare_alike, header, whole[-len(header):]),  # this one does not end well
]
for number, job in enumerate(jobs):
    record = job()
    if record.status != 1:
        print(f"job {number}: status {record.status:02x}")
        break
    print(f"job {number}: {record.completed} bytes")
shown = packet.decode()
print(f"{shown[:len(header) + 3]}...{shown[-padding - len(trailer):]}")
assert number == 5 and end == trailer

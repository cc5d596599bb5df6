"""Two versions of a page compared, and a delta record made of them and applied elsewhere, as delta.c: so a replica is
kept up to date without the whole page being sent.

    KAZOVUNI=PREFIX/lib/libkazovuni.so python3 delta.py
"""
import ctypes

from kazovuni import APPLY_DELTA, COMPARE, CREATE_DELTA, PAGE, Job, encode, record_of, submit_over


def submit(memory, job):
    """Carries a job out over a memory, and answers its record, which must have status 01."""
    lent = (ctypes.c_uint8 * len(memory)).from_buffer(memory)
    record = record_of(submit_over(lent, encode(job)))
    assert record.status == 1, record.status
    return record


before = bytes(place // 8 % 256 for place in range(PAGE))
after = bytearray(before)
after[100:107] = b"changed"  # in the blocks of 8 with the numbers 12 and 13
after[4000:4007] = b"changed"  # in block 500

# Two memories stand for two machines: the old page, the new one and room for a record; the old page, and room.
OLD, NEW, DELTA = 0, PAGE, 2 * PAGE
COPY, ARRIVED = 0, PAGE
here = bytearray(before + after + bytes(PAGE))
there = bytearray(before + bytes(PAGE))

compared = submit(here, Job(opcode=COMPARE, source=OLD, target=NEW, size=PAGE))
print(f"compare: result {compared.result}, the first difference is at {compared.completed}")
assert (compared.result, compared.completed) == (1, 100)

# With more than 400 bytes of differences, better send the page.
created = submit(here, Job(opcode=CREATE_DELTA, source=OLD, target=NEW, size=PAGE, extra=DELTA, delta_size=400))
print(f"create: result {created.result}, the record has {created.delta_size} bytes")
assert (created.result, created.delta_size) == (1, 30)

sent = here[DELTA:DELTA + created.delta_size]
there[ARRIVED:ARRIVED + len(sent)] = sent

applied = submit(there, Job(opcode=APPLY_DELTA, source=ARRIVED, delta_size=len(sent), target=COPY, size=PAGE))
print(f"apply: {applied.completed} bytes of the record are done")
assert there[:PAGE] == after
print("the copy is the new page")

"""Jobs straight over a program's own buffers, as buffers.c: a text is copied into a slice of a larger buffer and
compared there; what another text has otherwise is written as a delta record, and applied to the copy.

    KAZOVUNI=PREFIX/lib/libkazovuni.so python3 buffers.py

Whatever has the buffer protocol is passed as it is: bytes that are only read, a bytearray, a memoryview of a part.
"""
from kazovuni import apply_delta, compare, create_delta, move


def done(record):
    """The record of a job, which must have status 01."""
    assert record.status == 1, record.status
    return record


def tell(one, other):
    compared = done(compare(one, other))
    if compared.result == 0:
        print("compare: no difference")
    else:
        print(f"compare: the first difference is at {compared.completed}")


old_text = b"the quick brown fox jumps over the lazy dog now."
new_text = b"the quick green fox jumps over the lazy cat now."
pool = bytearray(1000)
copy = memoryview(pool)[333:333 + len(old_text)]  # at an odd place, which no call minds
delta = bytearray(len(old_text) // 8 * 10)  # at most an entry of 10 bytes for each block of 8

print(f"moved {done(move(old_text, copy)).completed} bytes")
tell(old_text, copy)
tell(new_text, copy)

created = done(create_delta(old_text, new_text, delta))
print(f"create: result {created.result}, the record has {created.delta_size} bytes")
assert created.delta_size == 20

applied = done(apply_delta(memoryview(delta)[:created.delta_size], copy))
print(f"apply: {applied.completed} bytes of the record are done")
tell(new_text, copy)
assert copy == new_text

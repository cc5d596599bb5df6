"""A buffer of 4 GiB and some bytes, by the words of examples/c/kazovuni.py: a length that was cut to 32 bits would be
that of a job that is accepted. And flags that a descriptor has no room for, with which no call is made.
`tests/c_examples.sh` runs it, at the top of the repository."""
import mmap
import sys

sys.path.insert(0, "examples/c")
import kazovuni

MOST = 2**32

# Zeros, that no page stands behind before one is read, and none ever is.
pages = mmap.mmap(-1, MOST + 4096, flags=mmap.MAP_PRIVATE | mmap.MAP_ANONYMOUS, prot=mmap.PROT_READ)
huge = memoryview(pages)
compared = kazovuni.compare(huge[:MOST + 64], huge[:MOST + 64])
applied = kazovuni.apply_delta(huge[:MOST + 60], bytearray(64))
assert (compared.status, applied.status) == (0x13, 0x15), (compared.status, applied.status)

for flags in [1 << 24, 1 << 31]:
    try:
        kazovuni.compare(b"same", b"same", flags)
        assert False, flags
    except ValueError:
        pass

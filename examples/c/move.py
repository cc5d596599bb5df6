"""A buffer moved over itself, as move.c: room for a word is made in a text, the word is put in, and the room is closed
again.

    KAZOVUNI=PREFIX/lib/libkazovuni.so python3 move.py
"""
import ctypes

from kazovuni import MOVE, PAGE, Job, encode, record_of, submit_over

memory = bytearray(2 * PAGE)
lent = (ctypes.c_uint8 * len(memory)).from_buffer(memory)  # the same bytes, as a call wants them


def move(target, source, size):
    """Moves bytes of the memory, also over themselves, and prints which way they went."""
    job = Job(opcode=MOVE, source=source, target=target, size=size)
    record = record_of(submit_over(lent, encode(job)))
    assert (record.status, record.completed) == (1, size)
    way = "last to the first" if record.result == 1 else "first to the last"
    print(f"moved {record.completed} bytes from the {way}")


def expect(text, wanted):
    found = memory[text:memory.index(0, text)].decode()
    print(found)
    assert found == wanted


text = PAGE - 16  # it goes over the edge between the two pages
place = text + len("the quick ")
size = len("fox jumps")
memory[text:text + 19] = b"the quick fox jumps"
expect(text, "the quick fox jumps")

move(place + 6, place, size + 1)  # upwards, into the buffer's own bytes
memory[place:place + 6] = b"brown "
expect(text, "the quick brown fox jumps")

move(place, place + 6, size + 1)  # and downwards again
expect(text, "the quick fox jumps")

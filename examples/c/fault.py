"""A page fault, the page brought, the rest carried out, as fault.c: a move between pages that are brought only when the
move asks for them.

    KAZOVUNI=PREFIX/lib/libkazovuni.so python3 fault.py
"""
from kazovuni import MOVE, PAGE, Engine, Job, encode, record_of, rest

PAGES, SOURCE, TARGET, SIZE = 4, 1000, 9000, 6000
store = bytes(place % 251 for place in range(PAGES * PAGE))  # where the pages come from

with Engine(PAGES, SIZE) as engine:  # a move needs as many bytes of staging as it moves
    engine.bring(0, store)  # page 0 is there from the start, the others are not
    left, done = encode(Job(opcode=MOVE, source=SOURCE, target=TARGET, size=SIZE)), 0
    while left:
        answered = engine.submit(left)
        record = record_of(answered)
        done += record.completed
        left = rest(left, answered)
        if left:
            access = "write" if record.status & 0x80 else "read"
            print(f"page fault on a {access} of {record.fault}, {done} bytes done")
            page = record.fault // PAGE
            engine.bring(page, store[page * PAGE:])
    print(f"{done} bytes done")
    assert done == SIZE
    assert engine.read(TARGET, SIZE) == store[SOURCE:SOURCE + SIZE]

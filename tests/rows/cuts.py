"""Scripts that are cut anywhere: pieces of a script, and what is answered behind each byte of a piece.

That is a fault, by its line and what it is called, with nothing written; or the answer of the lines before, and a text
behind it. The empty front is a row of the faults; each script begins behind its first byte.
"""

from texts import BAD_HEX, BAD_NUMBER, OPEN_BATCH, UNKNOWN_WORD, WRONG_WORDS

# What a job is answered whose size, and one whose flags, are refused.
NO_SIZE = "job 0 status 13 result 0 completed 0 fault 0 delta 0\n"
NO_FLAGS = "job 0 status 11 result 0 completed 0 fault 0 delta 0\n"

# A fill into an absent page, and what it leaves.
FILL = [
    ("imag", (1, UNKNOWN_WORD)),
    ("e ", (1, WRONG_WORDS)),
    ("2\n", ""),
    ("pag", (2, UNKNOWN_WORD)),
    ("e ", (2, WRONG_WORDS)),
    ("0\n", ""),
    ("fil", (3, UNKNOWN_WORD)),
    ("l 0x0807060504030201 4090 ", (3, WRONG_WORDS)),
    ("1", "job 0 status 01 result 0 completed 1 fault 0 delta 0\n"),
    ("2\n", "job 0 status 83 result 0 completed 6 fault 4096 delta 0\n"),
    ("sho", (4, UNKNOWN_WORD)),
    ("w 4088 ", (4, WRONG_WORDS)),
    ("1", "show 4088 00\n"),
    ("0\n", "show 4088 0000010203040506----\n"),
]

# A batch with a bad opcode.
BATCH = [
    ("imag", (1, UNKNOWN_WORD)),
    ("e ", (1, WRONG_WORDS)),
    ("1\n", ""),
    ("pag", (2, UNKNOWN_WORD)),
    ("e ", (2, WRONG_WORDS)),
    ("0\n", ""),
    ("batc", (3, UNKNOWN_WORD)),
    ("h\n", (3, OPEN_BATCH)),
    ("fil", (4, UNKNOWN_WORD)),
    ("l 1 0 ", (4, WRONG_WORDS)),
    ("8\n", (3, OPEN_BATCH)),
    ("ra", (5, UNKNOWN_WORD)),
    ("w ", (5, WRONG_WORDS)),
    ("0000000000000010" + "0" * 111, (5, BAD_HEX)),
    ("0\n", (3, OPEN_BATCH)),
    ("fil", (6, UNKNOWN_WORD)),
    ("l 2 8 ", (6, WRONG_WORDS)),
    ("8\n", (3, OPEN_BATCH)),
    ("en", (7, UNKNOWN_WORD)),
    (
        "d\n",
        "job 0 status 01 result 0 completed 8 fault 0 delta 0\n"
        "job 1 status 10 result 0 completed 0 fault 0 delta 0\n"
        "job 2 status 01 result 0 completed 8 fault 0 delta 0\n"
        "batch status 05 completed 3\n",
    ),
]

# Jobs that are refused, and an empty batch.
REFUSED = [
    ("imag", (1, UNKNOWN_WORD)),
    ("e ", (1, WRONG_WORDS)),
    ("1\n", ""),
    ("mov", (2, UNKNOWN_WORD)),
    ("e 0 0 ", (2, WRONG_WORDS)),
    ("104857", "job 0 status 03 result 0 completed 0 fault 0 delta 0\n"),
    ("7 ", NO_SIZE),
    ("flags ", (2, WRONG_WORDS)),
    ("0", NO_SIZE),
    ("x", (2, BAD_NUMBER)),
    ("10\n", NO_FLAGS),
    ("mov", (3, UNKNOWN_WORD)),
    ("e 0 0 ", (3, WRONG_WORDS)),
    ("104857", "job 1 status 03 result 0 completed 0 fault 0 delta 0\n"),
    ("7\n", "job 1 status 13 result 0 completed 0 fault 0 delta 0\n"),
    ("mov", (4, UNKNOWN_WORD)),
    ("e 0 0 ", (4, WRONG_WORDS)),
    ("0\n", "job 2 status 01 result 0 completed 0 fault 0 delta 0\n"),
    ("noo", (5, UNKNOWN_WORD)),
    ("p ", "job 3 status 01 result 0 completed 0 fault 0 delta 0\n"),
    ("flags ", (5, WRONG_WORDS)),
    ("1", "job 3 status 11 result 0 completed 0 fault 0 delta 0\n"),
    ("\n", "job 3 status 11 result 0 completed 0 fault 0 delta 0\n"),
    ("batc", (6, UNKNOWN_WORD)),
    ("h\n", (6, OPEN_BATCH)),
    ("en", (7, UNKNOWN_WORD)),
    ("d\n", "batch status 01 completed 0\n"),
]

# Pages, bytes and a comment.
PAGES = [
    ("imag", (1, UNKNOWN_WORD)),
    ("e ", (1, WRONG_WORDS)),
    ("4\n", ""),
    ("pag", (2, UNKNOWN_WORD)),
    ("e ", (2, WRONG_WORDS)),
    ("0\n", ""),
    ("pag", (3, UNKNOWN_WORD)),
    ("e ", (3, WRONG_WORDS)),
    ("3\n", ""),
    ("pok", (4, UNKNOWN_WORD)),
    ("e 0 ", (4, WRONG_WORDS)),
    ("0", (4, BAD_HEX)),
    ("1\n", ""),
    ("# none\n", ""),
]

# Jobs of each operation behind those lines.
JOBS = [
    ("noo", (6, UNKNOWN_WORD)),
    ("p\n", "job 0 status 01 result 0 completed 0 fault 0 delta 0\n"),
    ("mov", (7, UNKNOWN_WORD)),
    ("e 0 8 ", (7, WRONG_WORDS)),
    ("8\n", "job 1 status 01 result 0 completed 8 fault 0 delta 0\n"),
    ("fil", (8, UNKNOWN_WORD)),
    ("l 1 16 ", (8, WRONG_WORDS)),
    ("8\n", "job 2 status 01 result 0 completed 8 fault 0 delta 0\n"),
    ("compar", (9, UNKNOWN_WORD)),
    ("e 0 8 ", (9, WRONG_WORDS)),
    ("8\n", "job 3 status 01 result 0 completed 8 fault 0 delta 0\n"),
    ("compar", (10, UNKNOWN_WORD)),
    ("e", (10, WRONG_WORDS)),
    ("-patter", (10, UNKNOWN_WORD)),
    ("n 16 1 ", (10, WRONG_WORDS)),
    ("8\n", "job 4 status 01 result 0 completed 8 fault 0 delta 0\n"),
    ("creat", (11, UNKNOWN_WORD)),
    ("e 0 16 8 64 ", (11, WRONG_WORDS)),
    ("1", "job 5 status 15 result 0 completed 0 fault 0 delta 0\n"),
    ("0 ", "job 5 status 01 result 0 completed 8 fault 0 delta 0\n"),
    ("check ", (11, WRONG_WORDS)),
    ("0\n", "job 5 status 02 result 0 completed 8 fault 0 delta 0\n"),
    ("appl", (12, UNKNOWN_WORD)),
    ("y 64 0 32 ", (12, WRONG_WORDS)),
    ("8\n", "job 6 status 01 result 0 completed 0 fault 0 delta 0\n"),
    ("dualcas", (13, UNKNOWN_WORD)),
    ("t 0 128 12416 ", (13, WRONG_WORDS)),
    ("4\n", "job 7 status 01 result 0 completed 4 fault 0 delta 0\n"),
    ("ra", (14, UNKNOWN_WORD)),
    ("w ", (14, WRONG_WORDS)),
    ("0" * 127, (14, BAD_HEX)),
    ("0\n", "job 8 status 01 result 0 completed 0 fault 0 delta 0\n"),
]

# A batch and a show behind those jobs.
LAST = [
    ("batc", (15, UNKNOWN_WORD)),
    ("h\n", (15, OPEN_BATCH)),
    ("noo", (16, UNKNOWN_WORD)),
    ("p\n", (15, OPEN_BATCH)),
    ("en", (17, UNKNOWN_WORD)),
    (
        "d\n",
        "job 9 status 01 result 0 completed 0 fault 0 delta 0\n"
        "batch status 01 completed 1\n",
    ),
    ("sho", (18, UNKNOWN_WORD)),
    ("w 8 ", (18, WRONG_WORDS)),
    ("1\n", "show 8 01\n"),
]

TABLES = {
    "a fill": FILL,
    "a batch": BATCH,
    "jobs that are refused": REFUSED,
    "all kinds of lines": PAGES + JOBS + LAST,
}

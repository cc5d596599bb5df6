"""Texts with one fault, its line and what it is called, and texts at the edge of a fault that have none.

A text is encoded as UTF-8 where it is no bytes. A fault without a line is one of the whole script.
"""

from texts import BAD_HEX, BAD_NUMBER, BAD_RANGE, IN_BATCH, LONG_LINE, MISSING_IMAGE, NOT_ASCII, OPEN_BATCH
from texts import SECOND_IMAGE, STRAY_END, TOO_LONG, TOO_MANY_JOBS, UNKNOWN_WORD, WRONG_WORDS, done, longest

# The front of a batch, and of one behind another.
OPEN = "image 1\nbatch\n"
ANOTHER = "image 1\nnoop\nbatch\nnoop\nend\nbatch\n"


def refused(status):
    """Returns the line of a first job that is refused with this status."""
    return f"job 0 status {status} result 0 completed 0 fault 0 delta 0\n"


# Rows with a name, which are run at all settings.
NAMED = [
    ("poke_absent", "image 2\npoke 0 01", 2, BAD_RANGE),
    ("empty_script", "", 1, MISSING_IMAGE),
    ("batch_without_end", "image 1\nbatch\nnoop", 2, OPEN_BATCH),
    ("stray_end", "image 1\nend", 2, STRAY_END),
    ("show_in_batch", "image 1\nbatch\nshow 0 1\nend", 3, IN_BATCH),
    ("a fault behind a show", "image 1\nshow 0 1\nshow 0", 3, WRONG_WORDS),
    ("too_many_jobs", OPEN + "noop\n" * 1025 + "end\n", 1027, TOO_MANY_JOBS),
    ("a byte above the longest input", longest(4194305), None, TOO_LONG),
]

# Texts with one fault.
ONE_FAULT = [
    ("image 1\nnoop\u00e9", 2, NOT_ASCII),
    ("image 1\nnoop\x7f", 2, NOT_ASCII),
    ("image 1\ncomparepattern 0 0 0", 2, UNKNOWN_WORD),
    ("image 1\nNOOP", 2, UNKNOWN_WORD),
    ("image 1\nfil 0 0 0", 2, UNKNOWN_WORD),
    ("image 1\nfills 0 0 0", 2, UNKNOWN_WORD),
    ("image 1\nbatches", 2, UNKNOWN_WORD),
    ("image 1\npage 0\nbatch\npage 0\nend", 4, IN_BATCH),
    ("image 1\npage 0\nbatch\npoke 0 00\nend", 4, IN_BATCH),
    ("image 1\nbatch\nshow 0 1\nend", 3, IN_BATCH),
    ("image 1\nbatch\nnoop\nbatch\nend", 4, IN_BATCH),
    ("image 1\nend", 2, STRAY_END),
    ("image 1\nbatch\nend\nend", 4, STRAY_END),
    ("image 1\nbatch\nnoop", 2, OPEN_BATCH),
    ("image 1\nbatch\nend\n# open\n\nbatch\nnoop\n#\n", 6, OPEN_BATCH),
    ("image 1\nbatch 1\nend", 2, WRONG_WORDS),
    ("image 1\nbatch\nend 1", 3, WRONG_WORDS),
    ("noop", 1, MISSING_IMAGE),
    ("# first\n\n \t\npage 0\nimage 1", 4, MISSING_IMAGE),
    ("image 1\nnoop\nimage 1", 3, SECOND_IMAGE),
    ("image 1\npage", 2, WRONG_WORDS),
    ("image 1\npage 0 00 00", 2, WRONG_WORDS),
    ("image 1\npoke 0", 2, WRONG_WORDS),
    ("image 1\nnoop flag 1", 2, WRONG_WORDS),
    ("image 1\nnoop flags", 2, WRONG_WORDS),
    ("image 1\nnoop flags 1 flags 2", 2, WRONG_WORDS),
    ("image 1\nfill 0 0 0 0", 2, WRONG_WORDS),
    ("image 1\nfill 0 0 0 check 1", 2, WRONG_WORDS),
    ("image 1\nmove 0 0", 2, WRONG_WORDS),
    ("image 1\nmove 0 0 0 0", 2, WRONG_WORDS),
    ("image 1\ndualcast 0 0 0", 2, WRONG_WORDS),
    ("image 1\ndualcast 0 0 0 0 0", 2, WRONG_WORDS),
    ("image 1\nmove 0 0 0 check 0", 2, WRONG_WORDS),
    ("image 1\ncompare 0 0 0 check", 2, WRONG_WORDS),
    ("image 1\ncompare 0 0 0 flags 0 check 0", 2, WRONG_WORDS),
    ("image 1\ncompare 0 0 0 check 0 check 0", 2, WRONG_WORDS),
    ("image 1\ncompare-pattern 0 0", 2, WRONG_WORDS),
    ("image 1\ncreate 0 0 0 0", 2, WRONG_WORDS),
    ("image 1\napply 0 0 0", 2, WRONG_WORDS),
    ("image 1\napply 0 0 0 0 check 0", 2, WRONG_WORDS),
    ("image 1\ncompare 0 8 check", 2, BAD_NUMBER),
    ("image 1\ncompare 0 0 0 check 256", 2, BAD_NUMBER),
    ("image 1\ncompare-pattern 0 0 4294967296", 2, BAD_NUMBER),
    ("image 1\ncreate 0 0 4294967296 0 0", 2, BAD_NUMBER),
    ("image 1\ncreate 0 0 0 0 4294967296", 2, BAD_NUMBER),
    ("image 1\ncreate 0 0 0 0 0 check 0 flags 0x1000000", 2, BAD_NUMBER),
    ("image 1\napply 0 4294967296 0 0", 2, BAD_NUMBER),
    ("image 1\napply 0 0 0 4294967296", 2, BAD_NUMBER),
    ("image 1\nmove 0 0 4294967296", 2, BAD_NUMBER),
    ("image 1\ndualcast 0 0 0 4294967296", 2, BAD_NUMBER),
    ("image 1\ndualcast 0 0 0 0 flags 0x1000000", 2, BAD_NUMBER),
    ("image 1\nfill 1 0 flags", 2, BAD_NUMBER),
    ("image 1\nfill 1 flags 2", 2, BAD_NUMBER),
    ("image 1\nfill 0 0 4294967296", 2, BAD_NUMBER),
    ("image 1\nnoop flags 0x1000000", 2, BAD_NUMBER),
    ("image 1\npage 0 0", 2, BAD_HEX),
    ("image 1\npage 0 000", 2, BAD_HEX),
    ("image 1\npage 0 0g", 2, BAD_HEX),
    ("image 1\npage 0 0x00", 2, BAD_HEX),
    ("image 1\nraw", 2, WRONG_WORDS),
    ("image 1\nraw 00 flags 1", 2, WRONG_WORDS),
    ("image 1\nraw 00", 2, BAD_HEX),
    ("image 0", 1, BAD_RANGE),
    ("image 4097", 1, BAD_RANGE),
    ("image 18446744073709551615", 1, BAD_RANGE),
    ("image 1\npage 1", 2, BAD_RANGE),
    ("image 2\npoke 0 01", 2, BAD_RANGE),
    ("image 2\npage 0\npoke 4095 0102", 3, BAD_RANGE),
    ("image 2\npage 1\npoke 4095 0102", 3, BAD_RANGE),
    ("image 2\npoke 0 01\npage 0", 2, BAD_RANGE),
    ("image 1\npage 0\npoke 0xffffffffffffffff 0102", 3, BAD_RANGE),
    ("image 1\nshow 0 0", 2, BAD_RANGE),
    ("image 1\nshow 0 65537", 2, BAD_RANGE),
    ("image 1\nshow 18446744073709551615 2", 2, BAD_RANGE),
    ("", 1, MISSING_IMAGE),
    ("\n", 2, MISSING_IMAGE),
    ("\n\n", 3, MISSING_IMAGE),
    ("# a", 2, MISSING_IMAGE),
    ("#image 1\n", 2, MISSING_IMAGE),
]

# Lines with two faults, of which the first is named.
FIRST_OF_TWO = [
    ("im\u00e9ge 1", 1, NOT_ASCII),
    ("noop \u00e9", 1, NOT_ASCII),
    ("frob 0 0 0", 1, UNKNOWN_WORD),
    ("move 0 0", 1, MISSING_IMAGE),
    ("noop 1", 1, MISSING_IMAGE),
    ("compare 0 0 0", 1, MISSING_IMAGE),
    ("image 1\nimage", 2, SECOND_IMAGE),
    ("image 1\nimage 0", 2, SECOND_IMAGE),
    ("image 1\nimage x", 2, SECOND_IMAGE),
    ("image 1\nfill x 0", 2, WRONG_WORDS),
    ("image 1\npage x 0 0", 2, WRONG_WORDS),
    ("image 1\nshow 0 0 0", 2, WRONG_WORDS),
    ("image 1\npage x 0", 2, BAD_NUMBER),
    ("image 1\nshow 0x 0", 2, BAD_NUMBER),
    ("image 1\npage 7 0", 2, BAD_HEX),
    ("image 1\npoke 0 0", 2, BAD_HEX),
    ("image 1\npage 1\nmove", 2, BAD_RANGE),
    ("image 1\nfrob\npage 1", 2, UNKNOWN_WORD),
    ("raw 00", 1, MISSING_IMAGE),
    ("batch", 1, MISSING_IMAGE),
    ("end", 1, MISSING_IMAGE),
    ("image 1\nbatch\nimage 1", 3, SECOND_IMAGE),
    ("image 1\nbatch\nframe", 3, UNKNOWN_WORD),
    ("image 1\nbatch\nshow", 3, IN_BATCH),
    ("image 1\nbatch\nbatch 1", 3, IN_BATCH),
    ("image 1\nend 1", 2, STRAY_END),
    ("image 1\nbatch\nmove 0 0", 3, WRONG_WORDS),
    ("image 1\ncompare 0 8 check 1", 2, WRONG_WORDS),
    ("image 1\ncreate x 0 0 0", 2, WRONG_WORDS),
]

# Carriage returns that end no line, and another byte that is no blank.
ENDS_OF_LINES = [
    ("image 1\r", 1, NOT_ASCII),
    ("image 1\r\r\n", 1, NOT_ASCII),
    ("image 1\n\r", 2, NOT_ASCII),
    ("image 1\nno\rop\n", 2, NOT_ASCII),
    ("image 1\n\x0b", 2, NOT_ASCII),
]

# Lines and words above the limits.
LONG = [
    ("image 1\nnoop" + " " * 16381, 2, LONG_LINE),
    ("image 1\nnoop\u00e9" + " " * 16380, 2, LONG_LINE),
    ("image 1\nmove " + " " * 16380, 2, LONG_LINE),
    ("image 1\nnoop" + " " * 16380 + "\r", 2, LONG_LINE),
    ("frob" + " " * 16381, 1, LONG_LINE),
    ("noop" + " " * 16381, 1, LONG_LINE),
    ("image 1\nimage" + " " * 16380, 2, LONG_LINE),
    ("image 1\npage 0 " + "a" * 8194, 2, BAD_HEX),
    ("image 1\npage 0\npoke 1 " + "a" * 8192, 3, BAD_RANGE),
    ("image 1\npage 0\npoke 0 " + "a" * 8194, 3, BAD_HEX),
    ("image 3\npage 0\npage 2\npoke 4095 " + "a" * 4, 4, BAD_RANGE),
]

# Descriptors that are not 128 digits, short_raw_line first.
RAW = [
    ("image 1\nraw 0000000000000000" + "0" * 110, 2, BAD_HEX),
    ("image 1\nraw 0000000000000005" + "0" * 111, 2, BAD_HEX),
    ("image 1\nraw 0000000000000005" + "0" * 113, 2, BAD_HEX),
    ("image 1\nraw 0000000000000000" + "0" * 114, 2, BAD_HEX),
    ("image 1\nraw 000000000000000x" + "0" * 112, 2, BAD_HEX),
]

# Jobs of a batch at its limit and above: too_many_jobs, and faults of that line's own.
JOBS_OF_A_BATCH = [
    (OPEN + "noop\n" * 1025 + "end", 1027, TOO_MANY_JOBS),
    (OPEN + "noop\n" * 1024 + "raw 0", 1027, TOO_MANY_JOBS),
    (OPEN + "noop\n" * 1024 + "frob", 1027, UNKNOWN_WORD),
    (OPEN + "noop\n" * 1024 + "show", 1027, IN_BATCH),
    (OPEN + "noop\n" * 1024, 2, OPEN_BATCH),
    (ANOTHER + "noop\n" * 1025 + "end", 1031, TOO_MANY_JOBS),
]

# Words, and the numbers that they write: None where they write none.
NUMBERS = [
    ("0", 0),
    ("18446744073709551615", 0xffffffffffffffff),
    ("00000000000000000007", 7),
    ("0xAbCdEf", 0xabcdef),
    ("0x0000000000000001", 1),
    ("0xffffffffffffffff", 0xffffffffffffffff),
    ("18446744073709551616", None),
    ("000000000000000000007", None),
    ("0x00000000000000001", None),
    ("0x", None),
    ("0X10", None),
    ("+1", None),
    ("-1", None),
    ("1_000", None),
    ("a", None),
    ("0xg", None),
]

# Texts at the edge of a fault that have none, and their answers.
SOUND = [
    ("image 1\r\nnoop\r\n", done(0, 1, 0)),
    ("image\t1\n\tnoop \t\n \n#\n # x\n", done(0, 1, 0)),
    ("\r\nimage 1", ""),
    ("# \u00e9\nimage 1\n#noop \x7f", ""),
    ("image 1\nnoop" + " " * 16380, done(0, 1, 0)),
    ("image 1\nnoop" + " " * 16380 + "\r\n", done(0, 1, 0)),
    ("image 1\n" + " " * 20000, ""),
    (b"image 1\n#" + b"\xff" * 20000 + b"\n", ""),
    ("image 1\npage 0 " + "a" * 8192, ""),
    ("image 1\npage 0\npoke 0 " + "a" * 8192, ""),
    ("image 2\npage 1\npage 0\npoke 4095 " + "a" * 8192, ""),
    (OPEN + "end", "batch status 01 completed 0\n"),
    (OPEN + "noop\n" * 1024 + "end", done(0, 1024, 0) + "batch status 01 completed 1024\n"),
    (OPEN + "#\n" * 1025 + "end", "batch status 01 completed 0\n"),
    (
        ANOTHER + "noop\n" * 1024 + "end",
        done(0, 2, 0) + "batch status 01 completed 1\n" + done(2, 1024, 0) + "batch status 01 completed 1024\n",
    ),
    ("image 1\n" + "noop\n" * 1025, done(0, 1025, 0)),
    ("image 1\nraw 0000000000000000" + "0" * 112, done(0, 1, 0)),
    ("image 1\nraw 0000000000000004" + "0" * 112, done(0, 1, 0)),
    ("image 1\nraw 000000000000000a" + "0" * 112, refused("10")),
    ("image 1\nraw 0000000000000010" + "0" * 112, refused("10")),
    ("image 1\nraw 00000000000000fF" + "0" * 112, refused("10")),
    ("image 1\nraw 0000000000000003" + "0" * 112, done(0, 1, 0)),
    ("image 1\nraw 0000000000000005" + "0" * 112, done(0, 1, 0)),
    ("image 1\nraw 0000000000000006" + "0" * 112, done(0, 1, 0)),
    ("image 1\nraw 0000000000000007" + "0" * 112, refused("15")),
    ("image 1\nraw 0000000000000008" + "0" * 112, done(0, 1, 0)),
    ("image 1\nraw 0000000000000009" + "0" * 112, done(0, 1, 0)),
    # The largest size and all flags: they are read, and the job is refused for its flags.
    ("image 1\nfill 0 0 4294967295 flags 16777215", refused("11")),
]

TABLES = {
    "one fault": ONE_FAULT,
    "first of two": FIRST_OF_TWO,
    "ends of lines": ENDS_OF_LINES,
    "long": LONG,
    "raw": RAW,
    "jobs of a batch": JOBS_OF_A_BATCH,
}

"""What faults are called, and texts that several tables have."""

LONG_LINE = "the line is too long"
NOT_ASCII = "the line is not ASCII text"
UNKNOWN_WORD = "unknown word"
MISSING_IMAGE = "the script must begin with an image line"
SECOND_IMAGE = "a second image line"
IN_BATCH = "this line may not stand in a batch"
STRAY_END = "no batch is open"
TOO_MANY_JOBS = "the batch has too many jobs"
WRONG_WORDS = "wrong number or kind of words"
BAD_NUMBER = "not a number of the right size"
BAD_HEX = "not hexadecimal text of the right length"
BAD_RANGE = "out of range"
OPEN_BATCH = "the batch has no end"
TOO_LONG = "the script is too long"


def done(first, count, completed):
    """Returns the lines of so many jobs that completed so many bytes with success, from this number on."""
    return "".join(
        f"job {number} status 01 result 0 completed {completed} fault 0 delta 0\n"
        for number in range(first, first + count)
    )


def longest(length):
    """Returns a script of so many bytes: an image, a show, and comments in lines of 64 bytes."""
    lines = "image 1\nshow 0 1\n" + "#" * 47
    return (lines + ("\n" + "#" * 63) * (length // 64))[:length]

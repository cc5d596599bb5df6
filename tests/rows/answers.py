"""Scripts that are carried out, and their answers: rows of a name, a script and its answer, run at all settings."""

from texts import done, longest

# A descriptor with a bad opcode, the same with a fence, and one of zeros.
BAD_OPCODE = "raw 0000000000000010" + "0" * 112
FENCED_BAD_OPCODE = "raw 0000000001000010" + "0" * 112
ZEROS = "raw " + "0" * 128

# The staging sizes of rows that have another one than the default.
ARENAS = {"staging_refusal_and_two_waves": 64}



def blocks_over_an_edge(counts):
    """Returns a script that applies a record's first entries over a page's edge, each count in turn, and its answer."""
    numbers = [12, 13, 15, 16, 17, 20, 31]
    blocks = [f"{0xa1 + nth:02x}" * 8 for nth in range(len(numbers))]
    record = "".join(number.to_bytes(2, "little").hex() + block for number, block in zip(numbers, blocks))
    script = f"image 3\npage 0\npage 1\npage 2\npoke 0 {record}"
    answer = ""
    for turn, count in enumerate(counts):
        put = dict(zip(numbers[:count], blocks))
        script += f"\nfill 0 8064 256\napply 0 {10 * count} 8064 256\nshow 8064 256"
        answer += done(2 * turn, 1, 256) + done(2 * turn + 1, 1, 10 * count)
        answer += "show 8064 " + "".join(put.get(block, "00" * 8) for block in range(32)) + "\n"
    return script, answer


# Fills, descriptors and pages.
FILLS = [
    (
        "bare_image",
        "image 1",
        "",
    ),
    (
        "fill_into_absent_page",
        "image 2\npage 0\nfill 0x0807060504030201 4090 12\nshow 4088 10\n",
        "job 0 status 83 result 0 completed 6 fault 4096 delta 0\n"
        "show 4088 0000010203040506----\n",
    ),
    (
        "fill_refusals",
        "image 1\npage 0\nfill 0 0 1048577\nnoop flags 0x10\nfill 0 0xfffffffffffffff8 9\nfill 0 0xfffffffffffffff8 8",
        "job 0 status 13 result 0 completed 0 fault 0 delta 0\n"
        "job 1 status 11 result 0 completed 0 fault 0 delta 0\n"
        "job 2 status 7d result 0 completed 0 fault 0 delta 0\n"
        "job 3 status 83 result 0 completed 0 fault 18446744073709551608 delta 0\n",
    ),
    (
        "a no-op, and a fill of a whole range",
        "image 1\npage 0 ff\nnoop flags 0x8e\nfill 0xf0e0d0c0b0a09080 1 0\nfill 0xf0e0d0c0b0a09080 1 10\nshow 0 12",
        "job 0 status 01 result 0 completed 0 fault 0 delta 0\n"
        "job 1 status 01 result 0 completed 0 fault 0 delta 0\n"
        "job 2 status 01 result 0 completed 10 fault 0 delta 0\n"
        "show 0 ff8090a0b0c0d0e0f0809000\n",
    ),
    (
        "bad_opcode_descriptor, and a descriptor of zeros",
        f"image 1\n{BAD_OPCODE}\n{ZEROS}",
        "job 0 status 10 result 0 completed 0 fault 0 delta 0\n"
        "job 1 status 01 result 0 completed 0 fault 0 delta 0\n",
    ),
    (
        "bytes over a page's edge, a page brought again, and addresses past the last page",
        "image 3\npage 0\npage 1 0a0b\npoke 4094 01020304\nshow 4093 6\npage 0\nshow 4093 6\nshow 8190 4\n"
        "show 18446744073709551615 1",
        "show 4093 000102030400\n"
        "show 4093 000000030400\n"
        "show 8190 0000----\n"
        "show 18446744073709551615 --\n",
    ),
]

# Moves and dualcasts.
MOVES = [
    (
        "backward_move_into_absent_page",
        "image 2\npage 0 0102030405\nmove 0 4 4096\nshow 0 8",
        "job 0 status 83 result 1 completed 0 fault 4099 delta 0\n"
        "show 0 0102030405000000\n",
    ),
    (
        "forward_move_over_itself",
        "image 1\npage 0 a0a1a2a3a4a5a6a7a8a9aaab\npoke 100 d0d1d2d3d4d5\nmove 4 0 100\nshow 0 10\nshow 94 12",
        "job 0 status 01 result 0 completed 100 fault 0 delta 0\n"
        "show 0 a4a5a6a7a8a9aaab0000\n"
        "show 94 0000d0d1d2d3d0d1d2d3d4d5\n",
    ),
    (
        "dualcast_refusals",
        "image 4\npage 0\ndualcast 0 8 16 100\ndualcast 0 4096 8192 4097\ndualcast 0 4096 8192 4",
        "job 0 status 17 result 0 completed 0 fault 0 delta 0\n"
        "job 1 status 16 result 0 completed 0 fault 0 delta 0\n"
        "job 2 status 83 result 0 completed 0 fault 4096 delta 0\n",
    ),
    (
        "staging_refusal_and_two_waves",
        "image 1\npage 0\nmove 0 256 64\nmove 0 512 65\nmove 0 1024 64",
        "job 0 status 01 result 0 completed 64 fault 0 delta 0\n"
        "job 1 status 7e result 0 completed 0 fault 0 delta 0\n"
        "job 2 status 01 result 0 completed 64 fault 0 delta 0\n",
    ),
    (
        "end_of_address_space",
        "image 1\npage 0\nmove 0xfffffffffffffff0 0 17\nmove 0xfffffffffffffff0 0 16",
        "job 0 status 7d result 0 completed 0 fault 0 delta 0\n"
        "job 1 status 03 result 0 completed 0 fault 18446744073709551600 delta 0\n",
    ),
    (
        "flags_before_size",
        "image 1\nmove 0 0 1048577 flags 0x10\nmove 0 0 1048577\nmove 0 0 0\nnoop flags 1\nbatch\nend",
        "job 0 status 11 result 0 completed 0 fault 0 delta 0\n"
        "job 1 status 13 result 0 completed 0 fault 0 delta 0\n"
        "job 2 status 01 result 0 completed 0 fault 0 delta 0\n"
        "job 3 status 11 result 0 completed 0 fault 0 delta 0\n"
        "batch status 01 completed 0\n",
    ),
    (
        "backward_move_stops_at_page_edge",
        "image 3\npage 0\npage 2 0102\nmove 0 8 12272\nshow 8192 12",
        "job 0 status 03 result 1 completed 4080 fault 8191 delta 0\n"
        "show 8192 010200000000000001020000\n",
    ),
    (
        "dualcast_write_fault",
        "image 4\npage 0 0102030405\npage 1\npage 3\ndualcast 0 8190 16382 5\nshow 8190 2\nshow 16382 2",
        "job 0 status 83 result 0 completed 2 fault 8192 delta 0\n"
        "show 8190 0102\n"
        "show 16382 0102\n",
    ),
]

# Compares.
COMPARES = [
    (
        "mismatch_before_fault",
        "image 4\npage 0\npage 2\npoke 4095 01\ncompare 0 8192 8192",
        "job 0 status 01 result 1 completed 4095 fault 0 delta 0\n",
    ),
    (
        "compare_stops_at_page_edge",
        "image 4\npage 0\npage 2\npage 3\npoke 13192 01\ncompare 0 8192 8192",
        "job 0 status 03 result 0 completed 4096 fault 4096 delta 0\n",
    ),
    (
        "pattern_expected",
        "image 1\npage 0 0102030405060708010203\ncompare-pattern 0 0x0807060504030201 11 check 0\n"
        "compare-pattern 0 0x0807060504030201 12 check 2",
        "job 0 status 01 result 0 completed 11 fault 0 delta 0\n"
        "job 1 status 02 result 1 completed 11 fault 0 delta 0\n",
    ),
    (
        "the flag of a check without a word of its own",
        "image 1\npage 0 01\ncompare 0 8 8 flags 0x80\ncompare 8 16 8 flags 0x80\ncompare 0 8 8 check 1 flags 2",
        "job 0 status 02 result 1 completed 0 fault 0 delta 0\n"
        "job 1 status 01 result 0 completed 8 fault 0 delta 0\n"
        "job 2 status 01 result 1 completed 0 fault 0 delta 0\n",
    ),
]

# Deltas.
DELTAS = [
    (
        "delta_record_and_overflow",
        "image 1\npage 0\npoke 72 0102030405060708\npoke 88 1112131415161718\ncreate 0 64 32 128 20\nshow 128 20\n"
        "poke 64 ff\ncreate 0 64 32 128 20\nshow 128 20",
        "job 0 status 01 result 1 completed 32 fault 0 delta 20\n"
        "show 128 0100010203040506070803001112131415161718\n"
        "job 1 status 01 result 2 completed 24 fault 0 delta 20\n"
        "show 128 0000ff0000000000000001000102030405060708\n",
    ),
    (
        "overflow_before_write_fault",
        "image 2\npage 0\npoke 72 0102030405060708\npoke 88 1112131415161718\npoke 64 ff\ncreate 0 64 32 4076 20\n"
        "create 0 64 32 4076 30\ncreate 0 64 32 4080 20",
        "job 0 status 01 result 2 completed 24 fault 0 delta 20\n"
        "job 1 status 83 result 0 completed 24 fault 4096 delta 20\n"
        "job 2 status 83 result 0 completed 8 fault 4096 delta 10\n",
    ),
    (
        "delta_stops_at_absent_source",
        "image 2\npage 0\npoke 4056 01\npoke 4072 02\npoke 4088 03\ncreate 0 4056 64 128 80\nshow 128 30\n"
        "create 0 4056 64 256 20\nshow 276 3",
        "job 0 status 03 result 0 completed 40 fault 4096 delta 30\n"
        "show 128 000001000000000000000200020000000000000004000300000000000000\n"
        "job 1 status 01 result 2 completed 32 fault 0 delta 20\n"
        "show 276 000000\n",
    ),
    (
        "apply_not_rising",
        "image 1\npage 0\npoke 0 00001111111111111111\npoke 10 02002222222222222222\npoke 20 02003333333333333333\n"
        "apply 0 30 256 32\nshow 256 32",
        "job 0 status 07 result 0 completed 20 fault 0 delta 0\n"
        "show 256 1111111111111111000000000000000022222222222222220000000000000000\n",
    ),
    (
        "not_rising_before_fault",
        "image 3\npage 0\npage 2\npoke 0 0200aaaaaaaaaaaaaaaa\npoke 10 0000bbbbbbbbbbbbbbbb\napply 0 20 8176 32\n"
        "show 8192 8",
        "job 0 status 07 result 0 completed 10 fault 0 delta 0\n"
        "show 8192 aaaaaaaaaaaaaaaa\n",
    ),
    (
        "apply_offset_range",
        "image 129\npage 0\npage 128\npoke 0 ffffaaaaaaaaaaaaaaaa\npoke 16 0400bbbbbbbbbbbbbbbb\napply 16 10 256 32\n"
        "apply 0 10 4096 0x80000\nshow 528376 8",
        "job 0 status 08 result 0 completed 0 fault 0 delta 0\n"
        "job 1 status 01 result 0 completed 10 fault 0 delta 0\n"
        "show 528376 aaaaaaaaaaaaaaaa\n",
    ),
    (
        "blocks put by fours and one by one, of which some lie behind a page's edge",
        *blocks_over_an_edge([3, 4, 5, 7, 1, 2]),
    ),
    (
        "expected_results",
        "image 1\npage 0\ncompare 0 8 8 check 1\ncompare 0 8 8 check 0\npoke 64 ff\npoke 72 ff\n"
        "create 0 64 16 128 10 check 3\ncreate 0 64 16 128 10 check 4",
        "job 0 status 02 result 0 completed 8 fault 0 delta 0\n"
        "job 1 status 01 result 0 completed 8 fault 0 delta 0\n"
        "job 2 status 02 result 2 completed 8 fault 0 delta 10\n"
        "job 3 status 01 result 2 completed 8 fault 0 delta 10\n",
    ),
    (
        "empty_ranges",
        "image 1\npage 0\napply 0 10 256 0\napply 0 0 256 32\ncreate 0 64 0 128 10",
        "job 0 status 08 result 0 completed 0 fault 0 delta 0\n"
        "job 1 status 01 result 0 completed 0 fault 0 delta 0\n"
        "job 2 status 01 result 0 completed 0 fault 0 delta 0\n",
    ),
    (
        "every_page_absent",
        "image 4096\nmove 0 8 16\nfill 1 0 8\ncompare 0 8 8\ncreate 0 64 8 128 10\napply 0 10 256 8\n"
        "dualcast 0 4096 8192 8\nnoop\nshow 0 2",
        "job 0 status 03 result 1 completed 0 fault 15 delta 0\n"
        "job 1 status 83 result 0 completed 0 fault 0 delta 0\n"
        "job 2 status 03 result 0 completed 0 fault 0 delta 0\n"
        "job 3 status 03 result 0 completed 0 fault 0 delta 0\n"
        "job 4 status 03 result 0 completed 0 fault 0 delta 0\n"
        "job 5 status 03 result 0 completed 0 fault 0 delta 0\n"
        "job 6 status 01 result 0 completed 0 fault 0 delta 0\n"
        "show 0 ----\n",
    ),
]

# Batches.
BATCHES = [
    (
        "batch_with_bad_opcode",
        f"image 1\npage 0\nbatch\nfill 1 0 8\n{BAD_OPCODE}\nfill 2 8 8\nend\n",
        "job 0 status 01 result 0 completed 8 fault 0 delta 0\n"
        "job 1 status 10 result 0 completed 0 fault 0 delta 0\n"
        "job 2 status 01 result 0 completed 8 fault 0 delta 0\n"
        "batch status 05 completed 3\n",
    ),
    (
        "jobs are numbered over batches, and one batch says nothing of another",
        "image 1\nnoop\nbatch\nfill 1 0 8\nend\npage 0\nbatch\nfill 1 0 8\n# none\ncompare 0 8 8 check 1\nend\n"
        "show 0 9\nnoop",
        "job 0 status 01 result 0 completed 0 fault 0 delta 0\n"
        "job 1 status 83 result 0 completed 0 fault 0 delta 0\n"
        "batch status 05 completed 1\n"
        "job 2 status 01 result 0 completed 8 fault 0 delta 0\n"
        "job 3 status 01 result 1 completed 0 fault 0 delta 0\n"
        "batch status 01 completed 2\n"
        "show 0 010000000000000000\n"
        "job 4 status 01 result 0 completed 0 fault 0 delta 0\n",
    ),
]

# Fences in batches.
FENCES = [
    (
        "fence_in_batch",
        "image 1\nbatch\nnoop flags 1\nend",
        "job 0 status 01 result 0 completed 0 fault 0 delta 0\n"
        "batch status 01 completed 1\n",
    ),
    (
        "fence_orders",
        "image 1\npage 0\nbatch\nfill 1 0 8\nfill 2 0 8 flags 1\nend\nshow 0 8",
        "job 0 status 01 result 0 completed 8 fault 0 delta 0\n"
        "job 1 status 01 result 0 completed 8 fault 0 delta 0\n"
        "batch status 01 completed 2\n"
        "show 0 0200000000000000\n",
    ),
    (
        "fence_abandons",
        "image 1\npage 0\nbatch\nfill 1 0 8\nfill 1 4096 8\nfill 2 8 8 flags 1\nfill 3 16 8\nend\nshow 0 24",
        "job 0 status 01 result 0 completed 8 fault 0 delta 0\n"
        "job 1 status 83 result 0 completed 0 fault 4096 delta 0\n"
        "job 2 status 00 result 0 completed 0 fault 0 delta 0\n"
        "job 3 status 00 result 0 completed 0 fault 0 delta 0\n"
        "batch status 05 completed 2\n"
        "show 0 010000000000000000000000000000000000000000000000\n",
    ),
    (
        "the job that faults stands in an earlier wave than the last before the fence",
        "image 1\npage 0\nbatch\nfill 1 4096 8\nfill 1 0 8\nmove 0 64 8\nfill 2 8 8 flags 1\nend\nshow 0 16\nshow 64 8",
        "job 0 status 83 result 0 completed 0 fault 4096 delta 0\n"
        "job 1 status 01 result 0 completed 8 fault 0 delta 0\n"
        "job 2 status 01 result 0 completed 8 fault 0 delta 0\n"
        "job 3 status 00 result 0 completed 0 fault 0 delta 0\n"
        "batch status 05 completed 3\n"
        "show 0 01000000000000000000000000000000\n"
        "show 64 0100000000000000\n",
    ),
    (
        "fence_after_false_predicate",
        "image 1\npage 0\nbatch\ncompare 0 0 8 check 1\nnoop flags 1\nend",
        "job 0 status 02 result 0 completed 8 fault 0 delta 0\n"
        "job 1 status 00 result 0 completed 0 fault 0 delta 0\n"
        "batch status 05 completed 1\n",
    ),
    (
        "refused_fenced_job",
        f"image 1\npage 0\nbatch\nfill 1 0 8\n{FENCED_BAD_OPCODE}\nfill 2 8 8\nend",
        "job 0 status 01 result 0 completed 8 fault 0 delta 0\n"
        "job 1 status 10 result 0 completed 0 fault 0 delta 0\n"
        "job 2 status 01 result 0 completed 8 fault 0 delta 0\n"
        "batch status 05 completed 3\n",
    ),
    (
        "refused_fenced_job_after_fault",
        f"image 1\npage 0\nbatch\nfill 1 4096 8\n{FENCED_BAD_OPCODE}\nfill 2 8 8\nend",
        "job 0 status 83 result 0 completed 0 fault 4096 delta 0\n"
        "job 1 status 00 result 0 completed 0 fault 0 delta 0\n"
        "job 2 status 00 result 0 completed 0 fault 0 delta 0\n"
        "batch status 05 completed 1\n",
    ),
]

# A chain of jobs each of which conflicts with another.
CHAIN = [
    (
        "conflict_chain",
        "image 1\npage 0 0102030405060708\nmove 0 64 16\nmove 64 128 16\nfill 0xffffffffffffffff 0 16\nshow 0 8\n"
        "show 64 8\nshow 128 8",
        "job 0 status 01 result 0 completed 16 fault 0 delta 0\n"
        "job 1 status 01 result 0 completed 16 fault 0 delta 0\n"
        "job 2 status 01 result 0 completed 16 fault 0 delta 0\n"
        "show 0 ffffffffffffffff\n"
        "show 64 0102030405060708\n"
        "show 128 0102030405060708\n",
    ),
]


def with_pages(pages):
    """Returns the lines of an image of so many pages, all of which are brought."""
    return f"image {pages}\n" + "".join(f"page {page}\n" for page in range(pages))


# Jobs that are more than one list, or are worth several workers.
LISTS = [
    ("more_lines_than_one_list", "image 1\n" + "noop\n" * 1025, done(0, 1025, 0)),
    # The second list goes on where the first ended, other lines end a list, and a batch takes no job before it.
    (
        "lists_in_a_row",
        "image 1\npage 0\n" + "fill 1 0 8\n" * 1024 + "fill 2 0 8\nshow 0 1\nfill 3 0 8\n"
        "batch\nnoop flags 1\nend\nmove 0 8 8\nshow 8 1\n",
        done(0, 1025, 8) + "show 0 02\n" + done(1025, 1, 8) + done(1026, 1, 0) + "batch status 01 completed 1\n"
        + done(1027, 1, 8) + "show 8 03\n",
    ),
    (
        "a batch of 1,024 jobs",
        "image 1\nbatch\n" + "noop\n" * 1024 + "end\n",
        done(0, 1024, 0) + "batch status 01 completed 1024\n",
    ),
    # Eight compares of a mebibyte, worth four workers, as a list and as a batch.
    (
        "compares_on_workers",
        with_pages(256) + "compare 0 0 1048576\n" * 8 + "batch\n" + "compare 0 0 1048576\n" * 8 + "end\n",
        done(0, 16, 1048576) + "batch status 01 completed 8\n",
    ),
    # Four compares of a mebibyte before a fence and four behind it: each of the two large waves is worth workers. The
    # fence is the fill's, which the compares behind it see.
    (
        "compares_about_a_fence",
        with_pages(512) + "batch\n" + "compare 0 1048576 1048576\n" * 4 + "fill 1 0 8 flags 1\n"
        + "compare 0 1048576 1048576\n" * 4 + "end\n",
        done(0, 4, 1048576) + done(4, 1, 8)
        + "job 5 status 01 result 1 completed 0 fault 0 delta 0\n"
        "job 6 status 01 result 1 completed 0 fault 0 delta 0\n"
        "job 7 status 01 result 1 completed 0 fault 0 delta 0\n"
        "job 8 status 01 result 1 completed 0 fault 0 delta 0\n"
        "batch status 01 completed 9\n",
    ),
]

# A script of the greatest length.
LONGEST = [("the_longest_input", longest(4194304), "show 0 --\n")]

TABLES = {
    "fills": FILLS,
    "moves": MOVES,
    "compares": COMPARES,
    "deltas": DELTAS,
    "batches": BATCHES,
    "fences": FENCES,
    "chain": CHAIN,
    "lists": LISTS,
    "longest": LONGEST,
}

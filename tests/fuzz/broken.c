// Broken lines: each kind of fault, near the limits of what is none.
#include "maker.h"

static void bad_number(struct maker *maker) {
    static const char *const words[] = {
        "0X1", "+1", "-1", "0x", "x1", "1x", "0xg", "12a", "1_0", "000000000000000000001", "0x00000000000000001",
        "18446744073709551616", "99999999999999999999", "0x10000000000000000", "flags", "check", "0b1", "1.0", "''"};
    word(maker, words[below(maker, sizeof words / sizeof words[0])]);
}

static void bad_hex(struct maker *maker) {
    static const char *const words[] = {"0", "0g", "123", "0x12", "zz", "12 34", "-1", "#", "1"};
    word(maker, words[below(maker, sizeof words / sizeof words[0])]);
    if (one_in(maker, 6))
        for (int i = 0; i < 4096; i++)
            text_bytes(maker->script, "00", 2);
}

static void padded_line(struct maker *maker) {
    struct text *script = maker->script;
    word(maker, "noop");
    uint64_t length = 4, wanted = LONGEST_LINE - 2 + below(maker, 5);
    for (; length < wanted; length++)
        text_bytes(script, " ", 1);
    if (one_in(maker, 3))
        text_format(script, "\001");
    text_format(script, "%s", one_in(maker, 2) ? "\r\n" : "\n");
}

static void many_jobs(struct maker *maker) {
    uint64_t jobs = MOST_JOBS - 2 + below(maker, 5);
    if (!maker->is_in_batch)
        text_format(maker->script, "batch\n");
    for (uint64_t i = 0; i < jobs; i++)
        text_format(maker->script, "noop\n");
    text_format(maker->script, one_in(maker, 3) ? "fill 1\n" : "end\n");
    maker->is_in_batch = false;
}

static void wrong_range(struct maker *maker) {
    static const char *const lines[] = {
        "show 0 0", "show 0 65537", "show 0 65536", "show 0xffffffffffffffff 1", "show 0xffffffffffffffff 2",
        "show 18446744073709551615 65537", "show 0xfffffffffffffff0 17", "poke 0xffffffffffffffff 0000",
        "poke 18446744073709551615 00", "image 0", "image 4097", "image 0x1000", "image 18446744073709551615",
        "page 4096", "page 0xffffffffffffffff 00", "page 4095 00", "page 18446744073709551616"};
    if (one_in(maker, 3)) {
        static const uint8_t bytes[2] = {1, 2};
        uint64_t edge = PAGE * below(maker, (uint64_t)maker->pages + 1);
        poke_bytes(maker, edge + below(maker, 3) - 1, bytes, 2);
    } else if (one_in(maker, 3)) {
        page_line(maker, below(maker, (uint64_t)maker->pages + 2) % MOST_PAGES);
    } else {
        text_format(maker->script, "%s\n", lines[below(maker, sizeof lines / sizeof lines[0])]);
    }
}

static void wrong_words(struct maker *maker) {
    static const char *const lines[] = {
        "noop 1", "noop flags", "noop flags 1 flags 2", "noop check 1", "fill 1 0", "fill 1 0 8 8",
        "fill 1 0 8 check 0", "fill 1 0 flags", "fill 1 flags 2", "compare 0 8 8 flags 2 check 1",
        "compare 0 8 8 check", "compare 0 8 check 1", "compare 0 8 check", "compare 0 8 8 check 1 flags",
        "compare 0 8 8 check 256", "compare 0 8 8 check x flags y", "create 0 64 8 128",
        "create 0 64 8 128 10 check 0x100", "apply 0 10 256", "apply 0 10 256 8 check 1", "dualcast 0 4096 8192",
        "dualcast 0 4096 8192 8 flags 0x1000000", "noop flags 16777215", "noop flags 0x1000000", "raw", "raw 00 11",
        "page", "page 0 00 00", "poke 0", "poke 0 00 00", "show 0", "show 0 1 2", "batch 1", "end 1", "image",
        "image 1 1", "move x 0 0x100000000", "move 0 0 0x100000000", "fill 1 0 4294967296", "poke x y", "page x y",
        "page 0 y", "show x 0", "show 0 x", "create a b c d e", "noop  flags\t0", "fill flags flags flags"};
    text_format(maker->script, "%s\n", lines[below(maker, sizeof lines / sizeof lines[0])]);
}

static void unknown_word(struct maker *maker) {
    static const char *const words[] = {"Noop", "noop1", "images", "no-op", "comparepattern", "copy", "crc", "0",
                                        "drain", "flags", "check", "-", "//", "fill,", "END", "\"noop\"",
                                        "compare_pattern"};
    word(maker, words[below(maker, sizeof words / sizeof words[0])]);
    if (one_in(maker, 2))
        number(maker, any(maker));
    end_line(maker);
}

static void bad_number_line(struct maker *maker) {
    word(maker, one_in(maker, 2) ? "show" : "move");
    if (one_in(maker, 2))
        number(maker, 1);
    bad_number(maker);
    bad_number(maker);
    end_line(maker);
}

static void bad_hex_line(struct maker *maker) {
    word(maker, one_in(maker, 3) ? "raw" : one_in(maker, 2) ? "poke 0" : "page 0");
    bad_hex(maker);
    end_line(maker);
}

void bad_line(struct maker *maker) {
    switch (below(maker, 16)) {
    case 0:
        padded_line(maker);
        break;
    case 1:
        text_format(maker->script, "noop flags %c\n",
                    (int)(one_in(maker, 2) ? 127 + below(maker, 129) : 1 + below(maker, 31)));
        break;
    case 2:
        unknown_word(maker);
        break;
    case 3:
        text_format(maker->script, "image %s\n", one_in(maker, 2) ? "1" : "x");
        break;
    case 4:
        text_format(maker->script, "%s\n", one_in(maker, 2) ? "batch\nbatch" : "batch\nshow 0 1");
        break;
    case 5:
        text_format(maker->script, "end\nend\n");
        break;
    case 6:
        if (one_in(maker, 3))
            many_jobs(maker);
        break;
    case 7: case 8: case 9:
        wrong_words(maker);
        break;
    case 10: case 11:
        bad_number_line(maker);
        break;
    case 12: case 13:
        bad_hex_line(maker);
        break;
    default:
        wrong_range(maker);
    }
}

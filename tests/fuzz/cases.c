// Random cases. Addresses and sizes crowd at the places where rules meet: few bytes in one window, so that ranges
// overlap; edges of pages; the end of the image; the end of the address space; limits of sizes.
#include "cases.h"

#include "maker.h"

#include <stdlib.h>
#include <string.h>

enum { PAGES_SHOWN = 16 };

// ---- chance

uint64_t any(struct maker *maker) {
    uint64_t mixed = maker->state += 0x9e3779b97f4a7c15;
    mixed = (mixed ^ mixed >> 30) * 0xbf58476d1ce4e5b9;
    mixed = (mixed ^ mixed >> 27) * 0x94d049bb133111eb;
    return mixed ^ mixed >> 31;
}

uint64_t below(struct maker *maker, uint64_t most) {
    return any(maker) % most;
}

bool one_in(struct maker *maker, uint64_t times) {
    return below(maker, times) == 0;
}

static char letter_of(struct maker *maker, const char *letters) {
    return letters[below(maker, strlen(letters))];
}

// ---- words of a line

void word(struct maker *maker, const char *word) {
    static const char *const gaps[] = {" ", "\t", "  ", " \t "};
    struct text *script = maker->script;
    bool begins = script->length == 0 || script->bytes[script->length - 1] == '\n';
    if (begins ? !maker->is_plain && one_in(maker, 8) : true)
        text_format(script, "%s", maker->is_plain ? " " : gaps[one_in(maker, 4) ? below(maker, 4) : 0]);
    text_bytes(script, word, strlen(word));
}

void number(struct maker *maker, uint64_t number) {
    char digits[40];
    struct text text = {digits, 0, sizeof digits};
    unsigned long long value = number;
    int width = (int)below(maker, 17);
    switch (below(maker, 6)) {
    case 0:
        text_format(&text, "0x%llx", value);
        break;
    case 1:
        text_format(&text, "0x%0*llX", width, value);
        break;
    case 2:
        text_format(&text, "%0*llu", width + 4, value);
        break;
    default:
        text_format(&text, "%llu", value);
    }
    word(maker, digits);
}

static void hex_word(struct maker *maker, const uint8_t *bytes, size_t length) {
    word(maker, "");
    bool is_upper = one_in(maker, 4);
    for (size_t i = 0; i < length; i++)
        text_format(maker->script, is_upper ? "%02X" : "%02x", bytes[i]);
}

void end_line(struct maker *maker) {
    if (!maker->is_plain && one_in(maker, 16))
        text_format(maker->script, "%s", one_in(maker, 2) ? " " : "\t \t");
    text_format(maker->script, "%s", !maker->is_plain && one_in(maker, 6) ? "\r\n" : "\n");
}

// ---- addresses, sizes, flags

static uint64_t far_address(struct maker *maker) {
    uint64_t chosen = any(maker);
    return one_in(maker, 2) ? 0 - below(maker, 48) : chosen >> below(maker, 64);
}

static uint64_t address(struct maker *maker) {
    uint64_t chosen;
    switch (below(maker, 20)) {
    case 0: case 1: case 2: case 3: case 4: case 5: case 6:
        chosen = maker->base + below(maker, 256);
        break;
    case 7: case 8: case 9: case 10: case 11:
        chosen = PAGE * below(maker, (uint64_t)maker->pages + 1);
        chosen += below(maker, 49) - 24;
        break;
    case 12: case 13: case 14:
        chosen = maker->last + below(maker, 33) - 16;
        break;
    case 15: case 16:
        chosen = below(maker, (uint64_t)maker->pages * PAGE);
        break;
    case 17: case 18:
        chosen = maker->base + 8 * below(maker, 64);
        break;
    default:
        chosen = !one_in(maker, 3) ? maker->base + below(maker, 1024) : far_address(maker);
    }
    if (one_in(maker, 3))
        chosen &= ~(uint64_t)7;
    maker->last = chosen;
    return chosen;
}

static uint64_t block_address(struct maker *maker) {
    uint64_t chosen = address(maker);
    return one_in(maker, 24) ? chosen : chosen & ~(uint64_t)7;
}

static uint32_t size(struct maker *maker) {
    static const uint32_t limits[] = {0, 1, 7, 8, 9, 4095, 4096, 4097, 8192, 524288, 524280, 524289, 524296, 1048568,
                                      1048575, 1048576, 1048577, 1048584, 4294967295};
    uint32_t pages;
    switch (below(maker, 16)) {
    case 0: case 1: case 2: case 3: case 4: case 5:
        return (uint32_t)below(maker, 40);
    case 6: case 7: case 8:
        return (uint32_t)(8 * below(maker, 24));
    case 9: case 10: case 11:
        return (uint32_t)below(maker, 400);
    case 12: case 13:
        pages = (uint32_t)below(maker, 3);
        return pages * 4096 + (uint32_t)below(maker, 64);
    case 14:
        return limits[below(maker, sizeof limits / sizeof limits[0] / (one_in(maker, 3) ? 1 : 2))];
    default:
        return (uint32_t)(one_in(maker, 8) ? any(maker) : below(maker, 20000));
    }
}

static uint32_t block_size(struct maker *maker) {
    uint32_t chosen = size(maker);
    return one_in(maker, 24) ? chosen : chosen & ~(uint32_t)7;
}

static uint32_t record_size(struct maker *maker) {
    static const uint32_t limits[] = {0, 5, 10, 15, 655350, 655360, 655370, 4294967290};
    if (one_in(maker, 12))
        return limits[below(maker, 8)];
    return (uint32_t)(10 * below(maker, one_in(maker, 8) ? 2000 : 12));
}

static uint32_t flags(struct maker *maker) {
    static const uint32_t accepted[] = {0x02, 0x04, 0x08, 0x80, 0x100};
    uint32_t chosen = 0;
    for (int i = 0; i < 5; i++)
        chosen |= one_in(maker, 3) ? accepted[i] : 0;
    if (one_in(maker, maker->is_fenced ? 2 : 8))
        chosen |= FLAG_FENCE;
    if (one_in(maker, 20))
        chosen |= (uint32_t)1 << below(maker, 24);
    chosen = one_in(maker, 40) ? (uint32_t)(any(maker) & 0xffffff) : chosen;
    return maker->is_free ? chosen & ~(uint32_t)FLAG_FENCE : chosen;
}

static bool is_present(const struct maker *maker, uint64_t at, uint64_t length) {
    for (uint64_t i = 0; i < length; i++)
        if (at + i >= (uint64_t)maker->pages * PAGE || !maker->present[(at + i) / PAGE])
            return false;
    return true;
}

uint64_t pattern(struct maker *maker) {
    uint64_t turn = 8 * below(maker, 8), known = maker->pattern;
    switch (below(maker, 6)) {
    case 0:
        return any(maker);
    case 1:
        return 0x0101010101010101 * below(maker, 3);
    case 2:
        return turn == 0 ? known : known >> turn | known << (64 - turn);
    default:
        return known;
    }
}

// ---- lines but those of jobs

void page_line(struct maker *maker, uint64_t page) {
    uint8_t bytes[PAGE];
    size_t length = 0;
    word(maker, "page");
    number(maker, page);
    if (!one_in(maker, 3)) {
        length = one_in(maker, 30) ? PAGE : 1 + below(maker, 64);
        uint64_t repeated = pattern(maker);
        for (size_t i = 0; i < length; i++)
            bytes[i] = one_in(maker, 16) ? (uint8_t)any(maker) : (uint8_t)(repeated >> 8 * (i % 8));
        hex_word(maker, bytes, length);
    }
    end_line(maker);
    maker->present[page] = true;
}

void poke_bytes(struct maker *maker, uint64_t at, const uint8_t *bytes, size_t length) {
    word(maker, "poke");
    number(maker, at);
    hex_word(maker, bytes, length);
    end_line(maker);
}

static void poke_line(struct maker *maker) {
    uint8_t bytes[24];
    uint64_t at = address(maker), length = 1 + below(maker, sizeof bytes);
    for (int tries = 0; tries < 12 && !is_present(maker, at, length); tries++)
        at = address(maker);
    if (!is_present(maker, at, length))
        return;
    for (size_t i = 0; i < length; i++)
        bytes[i] = (uint8_t)(one_in(maker, 2) ? below(maker, 4) : any(maker));
    poke_bytes(maker, at, bytes, length);
}

void show_line(struct maker *maker, uint64_t at, uint64_t length) {
    if ((whole)at + length > (whole)1 << 64)
        at -= length;
    word(maker, "show");
    number(maker, at);
    number(maker, length);
    end_line(maker);
}

static void skipped_line(struct maker *maker) {
    static const char *const lines[] = {"", "#", "  ", "\t", "# a comment", "#noop", " \t# image 1", "#\001\377"};
    text_format(maker->script, "%s", lines[below(maker, 8)]);
    if (one_in(maker, 40))
        for (int i = 0; i < LONGEST_LINE / 8 + 1; i++)
            text_bytes(maker->script, "########", 8);
    end_line(maker);
}

// ---- lines of jobs

static void suffixes(struct maker *maker, bool has_check) {
    if (has_check && one_in(maker, 2)) {
        word(maker, "check");
        number(maker, one_in(maker, 8) ? below(maker, 256) : below(maker, 4));
    }
    if (one_in(maker, maker->is_fenced ? 2 : 4)) {
        word(maker, "flags");
        number(maker, flags(maker));
    }
    end_line(maker);
}

// A delta record by `poke`, where its bytes are present; then the line that applies it.
static void apply_line(struct maker *maker) {
    uint64_t at = address(maker), entries = 1 + below(maker, 6), offset = below(maker, 3), blocks = 0;
    uint8_t bytes[60];
    uint32_t length = record_size(maker);
    for (uint64_t i = 0; i < entries; i++) {
        bytes[10 * i] = (uint8_t)offset;
        bytes[10 * i + 1] = (uint8_t)(offset >> 8);
        for (int b = 2; b < 10; b++)
            bytes[10 * i + b] = (uint8_t)any(maker);
        blocks = offset + 1 > blocks ? offset + 1 : blocks;
        if (one_in(maker, 12))
            offset = below(maker, 70000) & 0xffff;
        else if (!one_in(maker, 10))
            offset += 1 + below(maker, 3);
    }
    for (int tries = 0; tries < 8 && !is_present(maker, at, 10 * entries); tries++)
        at = address(maker);
    bool is_there = !maker->is_in_batch && !maker->is_in_list && is_present(maker, at, 10 * entries);
    if (is_there)
        poke_bytes(maker, at, bytes, 10 * entries);
    if (is_there && !one_in(maker, 6))
        length = (uint32_t)(10 * entries);
    bool has_room = is_there && !one_in(maker, 6);
    uint32_t whole_size = has_room ? (uint32_t)(8 * (blocks + below(maker, 4))) : block_size(maker);
    word(maker, "apply");
    number(maker, at);
    number(maker, length);
    number(maker, block_address(maker));
    number(maker, one_in(maker, 20) ? size(maker) : whole_size);
    suffixes(maker, false);
}

static void create_line(struct maker *maker) {
    uint64_t source = block_address(maker), target = one_in(maker, 8) ? source : block_address(maker);
    uint64_t record = target + (one_in(maker, 4) ? 0 : 512);
    word(maker, "create");
    number(maker, source);
    number(maker, target);
    number(maker, block_size(maker));
    number(maker, one_in(maker, 4) ? address(maker) : record + below(maker, 2048));
    number(maker, record_size(maker));
    suffixes(maker, true);
}

static void dualcast_line(struct maker *maker) {
    uint64_t source = address(maker), first = address(maker);
    if (one_in(maker, 2))
        first = (first & ~(uint64_t)4095) + ((source + 512 + below(maker, 1024)) & 4095);
    uint64_t second = first + PAGE * (one_in(maker, 6) ? below(maker, 4) : 1);
    if (one_in(maker, 3) && second >= 2 * PAGE)
        second -= 2 * PAGE;
    word(maker, "dualcast");
    number(maker, source);
    number(maker, first);
    number(maker, one_in(maker, 12) ? address(maker) : second);
    number(maker, size(maker));
    suffixes(maker, false);
}

// A line of three numbers, one of which may be a pattern (its place, or -1).
static void three(struct maker *maker, const char *name, int pattern_place, bool has_check) {
    word(maker, name);
    for (int place = 0; place < 2; place++)
        number(maker, place == pattern_place ? pattern(maker) : address(maker));
    number(maker, size(maker));
    suffixes(maker, has_check);
}

void plain_job(struct maker *maker, const char *name, const uint64_t *numbers, int count, bool has_check) {
    word(maker, name);
    for (int i = 0; i < count; i++)
        number(maker, numbers[i]);
    suffixes(maker, has_check);
}

// A fill, and a compare of a part of it with the pattern, turned as it has to be, or by a byte too many.
static void compare_filled(struct maker *maker) {
    uint64_t at = address(maker), length = size(maker), skipped = below(maker, length % 64 + 1), known = pattern(maker);
    uint64_t turn = 8 * ((skipped + one_in(maker, 6)) % 8);
    uint64_t fill[] = {known, at, length};
    uint64_t turned = turn == 0 ? known : known >> turn | known << (64 - turn);
    uint64_t compare[] = {at + skipped, turned, length - skipped + one_in(maker, 3)};
    plain_job(maker, "fill", fill, 3, false);
    if (one_in(maker, 3) && !maker->is_in_batch && !maker->is_in_list)
        poke_line(maker);
    plain_job(maker, "compare-pattern", compare, 3, true);
}

// A copy that is changed in some blocks, the delta record of both, and its application elsewhere or to the original.
static void create_and_apply(struct maker *maker) {
    uint64_t source = block_address(maker), target = (source + 512 + 8 * below(maker, 600)) & ~(uint64_t)7;
    uint64_t length = block_size(maker) % 4096;
    uint64_t record = target + length + below(maker, 600), most = 10 + record_size(maker);
    uint64_t copy[] = {source, target, length}, create[] = {source, target, length, record, most};
    plain_job(maker, "move", copy, 3, false);
    for (uint64_t changes = below(maker, 5); changes > 0; changes--) {
        uint64_t bytes = pattern(maker), at = target + below(maker, length + 8), count = 1 + below(maker, 20);
        uint64_t change[] = {bytes, at, count};
        plain_job(maker, "fill", change, 3, false);
    }
    plain_job(maker, "create", create, 5, true);
    uint64_t given = 10 * below(maker, 8), place = one_in(maker, 2) ? source : block_address(maker);
    uint64_t apply[] = {record, given, place, length};
    plain_job(maker, "apply", apply, 4, false);
}

static void store(uint8_t *bytes, uint64_t number, int length) {
    for (int i = 0; i < length; i++)
        bytes[i] = (uint8_t)(number >> 8 * i);
}

// A descriptor, of any opcode, with noise where no field is.
static void descriptor(struct maker *maker, uint8_t bytes[64]) {
    uint8_t opcode = (uint8_t)(one_in(maker, 10) ? any(maker) : below(maker, 11));
    uint64_t target = opcode == CREATE || opcode == APPLY ? block_address(maker) : address(maker);
    bool is_noisy = one_in(maker, 2);
    for (int i = 0; i < 64; i++)
        bytes[i] = is_noisy ? (uint8_t)any(maker) : 0;
    store(bytes + 4, one_in(maker, 3) ? flags(maker) : 0, 3);
    bytes[7] = opcode;
    store(bytes + 16, opcode == FILL ? pattern(maker) : opcode == CREATE ? block_address(maker) : address(maker), 8);
    store(bytes + 24, opcode == COMPARE_PATTERN ? pattern(maker) : target, 8);
    store(bytes + 32, opcode == CREATE || opcode == APPLY ? block_size(maker) : size(maker), 4);
    if (opcode == CREATE)
        store(bytes + 40, address(maker), 8), store(bytes + 48, record_size(maker), 4);
    if (opcode == APPLY)
        store(bytes + 40, record_size(maker), 4);
    if (opcode == DUALCAST)
        store(bytes + 40, one_in(maker, 6) ? address(maker) : target + PAGE * below(maker, 4), 8);
    if (opcode == COMPARE || opcode == COMPARE_PATTERN || opcode == CREATE)
        bytes[opcode == CREATE ? 56 : 40] = (uint8_t)below(maker, 8);
}

void job_line(struct maker *maker) {
    uint8_t bytes[64];
    switch (below(maker, 18)) {
    case 0:
        word(maker, "noop");
        suffixes(maker, false);
        break;
    case 1: case 2: case 3:
        three(maker, "move", -1, false);
        break;
    case 4: case 5:
        three(maker, "fill", 0, false);
        break;
    case 6: case 7:
        three(maker, "compare", -1, true);
        break;
    case 8:
        three(maker, "compare-pattern", 1, true);
        break;
    case 9:
        compare_filled(maker);
        break;
    case 10: case 11:
        create_line(maker);
        break;
    case 12:
        create_and_apply(maker);
        break;
    case 13: case 14:
        apply_line(maker);
        break;
    case 15: case 16:
        dualcast_line(maker);
        break;
    default:
        descriptor(maker, bytes);
        word(maker, "raw");
        hex_word(maker, bytes, 64);
        end_line(maker);
    }
}

// ---- a script

static void image_line(struct maker *maker) {
    static const uint32_t large[] = {16, 129, 4095, 4096};
    maker->pages = one_in(maker, 20) ? large[below(maker, 4)] : 1 + (uint32_t)below(maker, one_in(maker, 3) ? 8 : 4);
    maker->base = PAGE * below(maker, maker->pages);
    maker->base += one_in(maker, 2) ? 0 : 8 * below(maker, 480);
    word(maker, "image");
    number(maker, maker->pages);
    end_line(maker);
}

static void first_pages(struct maker *maker) {
    if (maker->pages > 16) {
        page_line(maker, 0);
        page_line(maker, maker->pages - 1);
        page_line(maker, maker->base / PAGE);
        return;
    }
    uint64_t chance = 1 + below(maker, 12); // of so many pages about one is absent
    for (uint32_t page = 0; page < maker->pages; page++)
        if (chance == 1 || !one_in(maker, chance))
            page_line(maker, page);
}

static void any_line(struct maker *maker) {
    uint64_t chosen = below(maker, 20), at = address(maker);
    if (chosen == 0 && !maker->is_plain)
        skipped_line(maker);
    else if (chosen <= 2 && maker->is_in_batch)
        text_format(maker->script, "end\n"), maker->is_in_batch = false;
    else if (chosen == 1)
        text_format(maker->script, "batch\n"), maker->is_in_batch = true;
    else if (maker->is_of_jobs && !one_in(maker, 16))
        job_line(maker);
    else if (chosen <= 4 && !maker->is_in_batch)
        poke_line(maker);
    else if (chosen == 5 && !maker->is_in_batch)
        page_line(maker, below(maker, maker->pages));
    else if (chosen <= 7 && !maker->is_in_batch)
        show_line(maker, at, 1 + below(maker, one_in(maker, 6) ? 300 : 24));
    else
        job_line(maker);
}

static void last_lines(struct maker *maker) {
    if (maker->is_in_batch && !one_in(maker, 12))
        text_format(maker->script, "end\n"), maker->is_in_batch = false;
    if (maker->is_in_batch)
        return;
    if (maker->pages <= PAGES_SHOWN && one_in(maker, 2))
        show_line(maker, 0, (uint64_t)maker->pages * PAGE);
    else
        show_line(maker, maker->base - (maker->base >= 64 ? 64 : 0), 512);
    if (one_in(maker, 16))
        maker->script->length--; // no line feed at the end
}

// One to four changes of the finished text, anywhere.
static void mutate(struct maker *maker) {
    struct text *script = maker->script;
    static const char letters[] = " \t\n\r\n #0123456789abcdefxXgz-+";
    for (uint64_t turns = 1 + below(maker, 4); turns > 0 && script->length > 0; turns--) {
        size_t at = below(maker, script->length), end = at + 1 + below(maker, one_in(maker, 4) ? 40 : 2);
        char letter = one_in(maker, 8) ? (char)any(maker) : letter_of(maker, letters);
        struct text rest = {0};
        end = end > script->length ? script->length : end;
        switch (below(maker, 5)) {
        case 0: // another byte
            script->bytes[at] = letter;
            break;
        case 1: // bytes left out
            memmove(script->bytes + at, script->bytes + end, script->length - end);
            script->length -= end - at;
            break;
        case 2: // a byte put in
            text_bytes(&rest, script->bytes + at, script->length - at);
            script->length = at;
            text_bytes(script, &letter, 1);
            text_bytes(script, rest.bytes, rest.length);
            break;
        case 3: // bytes twice
            text_bytes(&rest, script->bytes + at, script->length - at);
            script->length = end;
            text_bytes(script, rest.bytes, rest.length);
            break;
        default: // the end cut off
            if (one_in(maker, 3))
                script->length = at;
        }
        free(rest.bytes);
    }
}

// Comments up to the longest script, or a byte or two more.
static void lengthen(struct maker *maker) {
    uint64_t wanted = LONGEST_SCRIPT - 1 + below(maker, 4);
    while (maker->script->length < wanted)
        text_bytes(maker->script, one_in(maker, 60) ? "\n" : "#", 1);
}

static void make_script(struct maker *maker) {
    bool is_broken = one_in(maker, 3), has_long_list = one_in(maker, 200);
    uint64_t lines = 1 + below(maker, one_in(maker, 8) ? 60 : 16), bad = is_broken ? below(maker, 2 * lines) : lines;
    maker->is_plain = !one_in(maker, 3);
    maker->is_of_jobs = one_in(maker, 4);
    maker->pattern = any(maker);
    if (one_in(maker, 300)) {
        wide_script(maker);
        return;
    }
    if (is_broken && one_in(maker, 20))
        maker->pages = 1; // no image line
    else
        image_line(maker);
    first_pages(maker);
    for (uint64_t line = 0; line < lines; line++) {
        if (line == bad)
            bad_line(maker);
        any_line(maker);
    }
    if (has_long_list)
        long_list(maker);
    last_lines(maker);
    if (is_broken && bad >= lines)
        mutate(maker);
    if (one_in(maker, 20000))
        lengthen(maker);
}

// ---- a case

// An option with its number, as two words or as one.
static void call_word(struct maker *maker, struct test_case *made, const char *name, uint64_t number) {
    bool is_one = one_in(maker, 3);
    text_format(&made->words[made->word_count++], is_one ? "%s=%llu" : "%s", name, (unsigned long long)number);
    if (!is_one)
        text_format(&made->words[made->word_count++], "%llu", (unsigned long long)number);
}

static void make_settings(struct maker *maker, struct test_case *made) {
    static const uint32_t arenas[] = {0, 8, 10, 20, 64, 100, 400, 4096, 655360, 1048575, 1048576, 16777216, 16777217};
    static const uint32_t chunks[] = {8, 16, 24, 32, 64, 128, 512, 4088, 4096, 65536, 1048576, 1048584, 12, 0};
    bool may_be_refused = one_in(maker, 100);
    if (one_in(maker, 3)) {
        made->settings.staging = arenas[below(maker, may_be_refused ? 13 : 12)];
        call_word(maker, made, "--arena", made->settings.staging);
    }
    if (!one_in(maker, 4)) {
        made->settings.chunk = chunks[below(maker, may_be_refused ? 14 : 11)];
        call_word(maker, made, "--chunk", made->settings.chunk);
    }
    if (!one_in(maker, 4)) {
        made->settings.workers = may_be_refused ? below(maker, 20) : 1 + below(maker, one_in(maker, 4) ? 16 : 4);
        call_word(maker, made, "--workers", made->settings.workers);
    }
}

static void make_description(struct maker *maker, struct test_case *made) {
    uint8_t bytes[64];
    struct text *hex = &made->words[1];
    maker->pages = 1 + (uint32_t)below(maker, 4);
    descriptor(maker, bytes);
    for (int i = 0; i < 64; i++)
        text_format(hex, one_in(maker, 4) ? "%02X" : "%02x", bytes[i]);
    if (one_in(maker, 6))
        hex->length -= 1 + below(maker, 4);
    if (one_in(maker, 12))
        text_format(hex, "00");
    size_t at = below(maker, hex->length);
    if (one_in(maker, 8))
        hex->bytes[at] = letter_of(maker, "gGxX ./:@`");
    hex->bytes[hex->length] = 0;
    made->word_count = 2;
}

void make_case(struct test_case *made, uint64_t seed, uint64_t number) {
    struct maker maker = {.state = seed, .script = &made->script};
    maker.state = any(&maker) + number * 0xd1342543de82ef95;
    any(&maker);
    text_clear(&made->script);
    text_bytes(&made->script, "", 0);
    for (int i = 0; i < MOST_CALL_WORDS; i++)
        text_clear(&made->words[i]);
    made->settings = (struct settings){1048576, 4096, 4};
    made->is_decode = one_in(&maker, 40);
    made->pieces = one_in(&maker, 8) ? any(&maker) | 1 : 0;
    made->word_count = 1;
    text_format(&made->words[0], made->is_decode ? "decode" : "run");
    if (made->is_decode) {
        make_description(&maker, made);
    } else {
        make_settings(&maker, made);
        make_script(&maker);
    }
}

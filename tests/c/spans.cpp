// Calls of kazovuni.hpp whose answers stand in docs/PROFILE.md: each operation over spans, and how they are refused.
// Exit status: 0, or the number of the first that answers something else.
#include "kazovuni.hpp"

#include <array>
#include <sys/mman.h>
#include <vector>

using namespace kazovuni;

static const std::vector<std::uint64_t> sevens(8, 0x0707070707070707), zeros(8);
static std::vector<std::uint8_t> source(5 * 1024 * 1024, 7), target(source.size()), delta(25);
static const const_view first = const_view(source).first(64);

static int try_compares()
{
    view odd = view(target).subspan(1, 64);
    if (mem_move(source, target).status != status_code::bad_size || target[0] != 0)
        return 1;
    if (mem_move(first, view(target).first(63)).status != status_code::inconsistent_size)
        return 2;
    if (mem_move(first, odd).status != status_code::ok || target[0] != 0 || target[64] != 7 || target[65] != 0)
        return 3;
    if (mem_copy(odd, view(target).subspan(3, 64)).status != status_code::ok || target[66] != 7 || target[67] != 0)
        return 4; // over itself, from the last byte on
    if (compare.expect_equal()(make_view(sevens), odd).status != status_code::ok)
        return 5;
    compare_result compared = compare(first, view(target).subspan(4, 64));
    if (compared.result != comparison_result::not_equal || compared.bytes_processed != 63)
        return 6;
    if (compare_pattern.expect_not_equal()(0x0707070707070707, odd).status != status_code::false_predicate)
        return 7;
    if (compare_pattern.expect(comparison_result{0x40})(0, odd).status != status_code::false_predicate)
        return 8;
    if (fill(1, view()).status != status_code::ok || compare(view(), view()).status != status_code::ok)
        return 9;
    const_data_view some = make_view(sevens.data(), 3), rest = make_view(sevens.begin() + 3, sevens.end());
    return some.size() == 24 && rest.data() == some.data() + 24 && rest.size() == 40 ? 0 : 10;
}

static int try_dualcasts()
{
    view second = view(target).subspan(4096, 64);
    if (dualcast(first, view(target).subspan(1, 64), second).status != status_code::dualcast_bad_padding)
        return 11;
    return dualcast(first, view(target).first(64), second).bytes_processed == 64 && second[63] == 7 ? 0 : 12;
}

static int try_deltas()
{
    view aligned = view(target).subspan(1024, 64);
    job_result made = create_delta(first, make_view(zeros), delta); // it has room for two entries of the eight
    if (made.status != status_code::ok || made.result != comparison_result::overflow || made.bytes_processed != 16)
        return 21;
    if (create_delta.expect_not_equal()(first, first, delta).status != status_code::false_predicate)
        return 22;
    if (create_delta.expect(comparison_result{0x40})(first, first, delta).status != status_code::false_predicate)
        return 23;
    job_result refused = create_delta(first, first, view(delta).first(9)); // no room for an entry, and none is wanted
    if (refused.status != status_code::bad_delta_size)
        return 24;
    if (fill(0x0908070605040302, aligned).status != status_code::ok || aligned[0] != 2 || aligned[15] != 9)
        return 25;
    if (apply_delta(delta, aligned, refused).status != status_code::ok || aligned[0] != 2)
        return 26;
    job_result applied = apply_delta(delta, aligned, made); // the two entries
    if (applied.status != status_code::ok || applied.bytes_processed != 20 || aligned[15] != 0 || aligned[16] != 2)
        return 27;
    if (apply_delta(delta, view(target).subspan(1, 64), made).status != status_code::bad_alignment)
        return 28;
    if (apply_delta(delta, aligned).status != status_code::bad_delta_size)
        return 29;
    if (create_delta(first, first, view(source).first(20)).status != status_code::buffers_overlapping)
        return 30;
    delta[10] = 0, delta[11] = 0; // the offset of the second entry is that of the first
    if (apply_delta(delta, aligned, made).status != status_code::not_rising)
        return 31;
    delta[10] = 8;
    return apply_delta(delta, aligned, made).status == status_code::offset_range ? 0 : 32;
}

// What is written is no const buffer, and what has another type than a byte goes through make_view.
template <typename... Buffers> constexpr bool moves = std::is_invocable_v<decltype(mem_move), Buffers...>;
static_assert(moves<const_view, view> && moves<const std::vector<std::byte> &, std::array<std::byte, 8> &>);
static_assert(!moves<view, const_view> && !moves<view, const std::vector<std::byte> &>);
static_assert(!moves<view, std::vector<std::uint64_t> &> && !moves<view, std::span<const std::byte>>);

// A view of a temporary would outlive what it shows.
template <typename Range> constexpr bool is_viewed = requires(Range &&range) { make_view(std::forward<Range>(range)); };
static_assert(is_viewed<std::vector<int> &> && is_viewed<const std::vector<int> &> && is_viewed<std::span<int>>);
static_assert(!is_viewed<std::vector<int>> && !is_viewed<const std::array<int, 8>>);

// Buffers as a program has them, of std::uint8_t and of std::byte.
static int try_buffers()
{
    std::array<std::uint8_t, 64> numbers{};
    std::array<std::byte, 64> bytes{};
    std::uint8_t plain[64] = {};
    const std::vector<std::byte> nines(64, std::byte{9});
    std::vector<std::byte> copy(64);
    std::span<std::byte> all = bytes;
    std::span<const std::byte, 64> fixed(bytes);
    if (mem_move(nines, bytes).status != status_code::ok || bytes[63] != std::byte{9})
        return 33;
    if (mem_move(all, numbers).status != status_code::ok || numbers[63] != 9)
        return 34;
    if (mem_move(numbers, plain).status != status_code::ok || plain[63] != 9)
        return 35;
    if (execute(mem_move, fixed, copy).bytes_processed != 64 || copy != nines)
        return 36;
    if (compare(fixed, plain).result != comparison_result::equal)
        return 37;
    if (mem_move(std::as_bytes(std::span(sevens)), all.first(64)).status != status_code::ok || bytes[0] != std::byte{7})
        return 38;
    if (fill(0, std::as_writable_bytes(std::span(numbers))).status != status_code::ok || numbers[63] != 0)
        return 39;
    if (fill(1, {}).status != status_code::ok || mem_move({plain, 8}, {numbers.data(), 8}).bytes_processed != 8)
        return 40;
    return numbers[7] == 9 && numbers[8] == 0 ? 0 : 41;
}

// Buffers of another length than the first one's, each place in turn; and one with room for more than a record has.
static int try_lengths()
{
    const_view fewer = first.first(56);
    view all = target, second = all.subspan(4096, 64), aligned = all.subspan(1024, 64);
    if (compare(first, fewer).status != status_code::inconsistent_size)
        return 42;
    if (create_delta(first, fewer, delta).status != status_code::inconsistent_size)
        return 43;
    if (dualcast(first, all.first(64), second.first(63)).status != status_code::inconsistent_size)
        return 44;
    if (dualcast(first, all.first(63), second).status != status_code::inconsistent_size)
        return 45;
    job_result made = create_delta(first, make_view(zeros), all);
    if (made.status != status_code::ok || made.delta_record_size != 80)
        return 46;
    if (fill(0x0101010101010101, aligned).status != status_code::ok)
        return 47;
    job_result applied = apply_delta(all.first(10), aligned, made); // one entry of the eight lies in this buffer
    if (applied.status != status_code::ok || applied.bytes_processed != 10)
        return 48;
    return aligned[7] == 0 && aligned[8] == 1 ? 0 : 49;
}

// Buffers of 4 GiB and some bytes, none of which may be touched: a length that was cut to 32 bits would be that of a
// job that is accepted.
static int try_too_long()
{
    constexpr std::size_t most = std::size_t{1} << 32;
    void *pages = mmap(nullptr, most + 4096, PROT_NONE, MAP_PRIVATE | MAP_ANONYMOUS | MAP_NORESERVE, -1, 0);
    if (reinterpret_cast<std::intptr_t>(pages) == -1)
        return 50;
    view huge(static_cast<std::uint8_t *>(pages), most + 64), aligned = view(target).subspan(1024, 64);
    if (mem_move(huge, huge).status != status_code::bad_size)
        return 51;
    if (fill(1, huge).status != status_code::bad_size)
        return 52;
    if (compare(huge, huge).status != status_code::bad_size)
        return 53;
    if (create_delta(huge, huge, delta).status != status_code::bad_size)
        return 54;
    return apply_delta(huge.first(most + 60), aligned).status == status_code::bad_delta_size ? 0 : 55;
}

int main()
{
    for (int (*part)() : {try_compares, try_dualcasts, try_deltas, try_buffers, try_lengths, try_too_long})
        if (int number = part(); number != 0)
            return number;
    return 0;
}

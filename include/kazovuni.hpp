/*
 * Kazovuni for C++20: jobs straight over the caller's own buffers, as spans of bytes, each with a result in place of a
 * completion record. What kazovuni.h says of kazovuni_execute holds of each call: a buffer that is written shares no
 * byte with another one of the call, or the job is refused, but in mem_move; buffers that are only read may be shared
 * by any number of threads; nothing is allocated, and nothing is thrown.
 *
 * Operations are values that are called, or passed to execute, by the names of Intel's C++ interface: most of a program
 * that was written for it changes the namespace alone, and docs/C.md lists what else. Each of these is the same call:
 *
 *     dml::execute<dml::software>(dml::mem_move, dml::make_view(source), dml::make_view(target))
 *     kazovuni::execute<kazovuni::software>(
 *         kazovuni::mem_move, kazovuni::make_view(source), kazovuni::make_view(target))
 *     kazovuni::mem_move(source, target)
 */
#ifndef KAZOVUNI_HPP
#define KAZOVUNI_HPP

#include "kazovuni.h"

#include <algorithm>
#include <concepts>
#include <cstddef>
#include <cstdint>
#include <iterator>
#include <limits>
#include <optional>
#include <ranges>
#include <span>
#include <type_traits>
#include <utility>

namespace kazovuni {

using view = std::span<std::uint8_t>;
using const_view = std::span<const std::uint8_t>;
using data_view = view;
using const_data_view = const_view;

/*
 * How a job ended: the statuses of completion records that come up over buffers. From bad_size on it was refused, and
 * with inconsistent_size none was made: nothing is written then.
 */
enum class status_code : std::uint8_t {
    inconsistent_size = 0x00,    /* no job was made: its buffers have different lengths */
    ok = 0x01,
    false_predicate = 0x02,      /* the job is done, with another result than was expected */
    not_rising = 0x07,           /* apply_delta: an offset of the record is not above the one before it */
    offset_range = 0x08,         /* apply_delta: an offset of the record lies behind the target */
    bad_size = 0x13,             /* above 1,048,576; of a delta above 524,288, or no multiple of 8 */
    bad_delta_size = 0x15,       /* a record has 10 bytes an entry, at most 655,360; a create wants room for one */
    buffers_overlapping = 0x16,  /* a buffer that is written shares a byte with another one */
    dualcast_bad_padding = 0x17, /* the low 12 bits of the two targets' addresses differ */
    bad_alignment = 0x1c         /* a delta's sources and targets stand at multiples of 8 */
};

/* What a compare or a create found; overflow: the delta record has no room for all differences. */
enum class comparison_result : std::uint8_t { equal = 0, not_equal = 1, overflow = 2 };

struct job_result {
    status_code status;
    /*
     * Of compare, compare_pattern and create_delta, where status is ok or false_predicate; else it is equal, and says
     * nothing.
     */
    comparison_result result;
    std::size_t bytes_processed;   /* of a compare that found a difference: its offset */
    std::size_t delta_record_size; /* of create_delta */
};

using mem_move_result = job_result;
using mem_copy_result = job_result;
using fill_result = job_result;
using dualcast_result = job_result;
using compare_result = job_result;
using compare_pattern_result = job_result;
using create_delta_result = job_result;
using apply_delta_result = job_result;

/* The bytes of a vector, an array or whatever else lies in one piece, and outlives the view. */
template <std::ranges::contiguous_range Range>
    requires std::ranges::sized_range<Range> && std::is_trivially_copyable_v<std::ranges::range_value_t<Range>> &&
             (std::is_lvalue_reference_v<Range> || std::ranges::borrowed_range<Range>)
auto make_view(Range &&range) noexcept
{
    using element = std::remove_reference_t<std::ranges::range_reference_t<Range>>;
    using byte = std::conditional_t<std::is_const_v<element>, const std::uint8_t, std::uint8_t>;
    std::size_t length = std::ranges::size(range) * sizeof(element);
    return std::span<byte>(reinterpret_cast<byte *>(std::ranges::data(range)), length);
}

/* Those of so many elements from a place on, and of the elements between two places. */
template <std::contiguous_iterator Iterator> auto make_view(Iterator first, std::size_t count) noexcept
{
    return make_view(std::span(first, count));
}

template <std::contiguous_iterator Iterator> auto make_view(Iterator first, Iterator last) noexcept
{
    return make_view(std::span(first, last));
}

namespace detail {

enum : std::uint8_t { move = 0x03, fill, compare, compare_pattern, create_delta, apply_delta, dualcast };
inline constexpr std::uint32_t check_result = 0x80;
inline constexpr std::size_t entry = 10, most_delta = 655360;

/* What a call takes as a buffer: whatever converts to a span of bytes, which are std::uint8_t or std::byte. */
template <typename Byte, typename Other> struct buffer_of : std::span<Byte> {
    buffer_of() = default;
    template <std::convertible_to<std::span<Byte>> Bytes>
    buffer_of(Bytes &&bytes) noexcept : std::span<Byte>(bytes) {}
    template <std::convertible_to<std::span<Other>> Bytes>
    buffer_of(Bytes &&bytes) noexcept : std::span<Byte>(make_view(std::span<Other>(bytes))) {}
    template <std::contiguous_iterator Iterator>
    buffer_of(Iterator first, std::size_t count) noexcept : buffer_of(std::span(first, count)) {}
};
using buffer = buffer_of<std::uint8_t, std::byte>;
using const_buffer = buffer_of<const std::uint8_t, const std::byte>;

inline std::uint64_t address_of(const_view bytes) noexcept
{
    return reinterpret_cast<std::uintptr_t>(bytes.data());
}

/* A length as a descriptor has it; one that does not fit is too long for any job, and so is what is answered for it. */
inline std::uint32_t size_of(std::size_t length) noexcept
{
    return static_cast<std::uint32_t>(std::min<std::size_t>(length, std::numeric_limits<std::uint32_t>::max()));
}

inline job_result execute(const kazovuni_job &job) noexcept
{
    std::uint8_t descriptor[KAZOVUNI_DESCRIPTOR_BYTES], record[KAZOVUNI_RECORD_BYTES];
    kazovuni_record fields{};
    if (!kazovuni_encode(&job, descriptor) || kazovuni_execute(descriptor, record) != KAZOVUNI_OK ||
        !kazovuni_record_decode(record, &fields))
        return {};
    bool has_result = job.opcode >= compare && job.opcode <= create_delta;
    auto result = has_result ? comparison_result{fields.result} : comparison_result::equal;
    return {status_code{fields.status}, result, fields.completed, fields.delta_size};
}

/* The job, checked for a result where one is expected: a compare's whole byte, a create's mask of eight results. */
inline job_result execute(kazovuni_job job, std::optional<comparison_result> expected) noexcept
{
    if (expected) {
        auto result = static_cast<std::uint8_t>(*expected);
        job.flags = check_result;
        job.expected = job.opcode != create_delta ? result : static_cast<std::uint8_t>(result < 8 ? 1u << result : 0u);
    }
    return execute(job);
}

inline kazovuni_job job_of(std::uint8_t opcode, std::uint64_t source, std::uint64_t target, std::size_t length) noexcept
{
    kazovuni_job job{};
    job.opcode = opcode;
    job.source = source;
    job.target = target;
    job.size = size_of(length);
    return job;
}

} // namespace detail

/*
 * Copies a buffer over another one of the same length. The two may overlap: the bytes come as they stood before, in
 * mem_copy too, which is the same call.
 */
struct mem_move_operation {
    job_result operator()(detail::const_buffer source, detail::buffer target) const noexcept
    {
        if (source.size() != target.size())
            return {};
        return detail::execute(
            detail::job_of(detail::move, detail::address_of(source), detail::address_of(target), source.size()));
    }
};
inline constexpr mem_move_operation mem_move{}, mem_copy{};

/* Fills a buffer with 8 bytes over and over, the lowest of the number first. */
struct fill_operation {
    job_result operator()(std::uint64_t pattern, detail::buffer target) const noexcept
    {
        return detail::execute(detail::job_of(detail::fill, pattern, detail::address_of(target), target.size()));
    }
};
inline constexpr fill_operation fill{};

/* Copies a buffer over two others of the same length, whose addresses have the same low 12 bits. */
struct dualcast_operation {
    job_result operator()(detail::const_buffer source, detail::buffer target, detail::buffer second) const noexcept
    {
        if (source.size() != target.size() || source.size() != second.size())
            return {};
        auto job =
            detail::job_of(detail::dualcast, detail::address_of(source), detail::address_of(target), source.size());
        job.extra = detail::address_of(second);
        return detail::execute(job);
    }
};
inline constexpr dualcast_operation dualcast{};

/* What an operation with a result expects: status ok comes only with that, and else false_predicate. */
template <typename Operation> struct expecting {
    std::optional<comparison_result> expected = std::nullopt;

    constexpr Operation expect(comparison_result result) const noexcept
    {
        Operation operation{};
        operation.expected = result;
        return operation;
    }

    constexpr Operation expect_equal() const noexcept { return expect(comparison_result::equal); }

    constexpr Operation expect_not_equal() const noexcept { return expect(comparison_result::not_equal); }
};

/* Finds the first byte in which two buffers of the same length differ. */
struct compare_operation : expecting<compare_operation> {
    job_result operator()(detail::const_buffer one, detail::const_buffer other) const noexcept
    {
        if (one.size() != other.size())
            return {};
        return detail::execute(
            detail::job_of(detail::compare, detail::address_of(one), detail::address_of(other), one.size()),
            expected);
    }
};
inline constexpr compare_operation compare{};

/* The same with 8 bytes over and over, the lowest of the number first. */
struct compare_pattern_operation : expecting<compare_pattern_operation> {
    job_result operator()(std::uint64_t pattern, detail::const_buffer bytes) const noexcept
    {
        return detail::execute(
            detail::job_of(detail::compare_pattern, detail::address_of(bytes), pattern, bytes.size()), expected);
    }
};
inline constexpr compare_pattern_operation compare_pattern{};

/*
 * Writes how the second buffer differs from the first: an entry of 10 bytes for each differing block of 8, as many as
 * the third buffer has room for. That has to be one at least, also where nothing differs: else bad_delta_size.
 */
struct create_delta_operation : expecting<create_delta_operation> {
    job_result operator()(detail::const_buffer one, detail::const_buffer other, detail::buffer delta) const noexcept
    {
        if (one.size() != other.size())
            return {};
        auto job =
            detail::job_of(detail::create_delta, detail::address_of(one), detail::address_of(other), one.size());
        job.extra = detail::address_of(delta);
        job.delta_size = detail::size_of(std::min(delta.size() - delta.size() % detail::entry, detail::most_delta));
        return detail::execute(job, expected);
    }
};
inline constexpr create_delta_operation create_delta{};

/* Writes what a delta record says over a buffer of the length that it was made of. */
struct apply_delta_operation {
    job_result operator()(detail::const_buffer delta, detail::buffer target) const noexcept
    {
        auto job =
            detail::job_of(detail::apply_delta, detail::address_of(delta), detail::address_of(target), target.size());
        job.delta_size = detail::size_of(delta.size());
        return detail::execute(job);
    }

    /*
     * The same with the buffer in which a create left its record, and the create's result. What stands there is
     * applied: of a record that overflowed, the entries that it has; of a create that was refused, nothing. Both end in
     * ok, so look at the create's status and result first.
     */
    job_result operator()(detail::const_buffer delta, detail::buffer target, const job_result &created) const noexcept
    {
        return (*this)(delta.first(std::min(delta.size(), created.delta_record_size)), target);
    }
};
inline constexpr apply_delta_operation apply_delta{};

/* An operation, called: there is one way to carry a job out. */
struct software {};

template <typename Path = software, typename Operation, typename... Buffers>
job_result execute(const Operation &operation, Buffers &&...buffers) noexcept
{
    return operation(std::forward<Buffers>(buffers)...);
}

} // namespace kazovuni

#endif

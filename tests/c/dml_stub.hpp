// As much of Intel's C++ interface as the program of docs/C.md calls, by its names, and only declared: it was written
// for tests/c_examples.sh, which compiles that program with it and links nothing. It is no copy of Intel's header, and
// shows nothing of what that says otherwise.
#ifndef DML_STUB_HPP
#define DML_STUB_HPP

#include <cstddef>
#include <cstdint>

namespace dml {

struct software {};

enum class status_code { ok };
enum class comparison_result { equal, not_equal, overflow };

struct data_view {
    std::uint8_t *data;
    std::size_t size;
};

struct const_data_view {
    const_data_view(data_view view);
    const std::uint8_t *data;
    std::size_t size;
};

template <typename Container> data_view make_view(Container &container);

struct mem_move_result {
    status_code status;
    std::size_t bytes_processed;
};

struct compare_result {
    status_code status;
    comparison_result result;
    std::size_t bytes_processed;
};

struct create_delta_result {
    status_code status;
    comparison_result result;
    std::size_t bytes_processed;
    std::size_t delta_record_size;
};

struct apply_delta_result {
    status_code status;
    std::size_t bytes_processed;
};

constexpr struct mem_move_operation {
    mem_move_result operator()(const_data_view source, data_view target) const;
} mem_move{};

constexpr struct compare_operation {
    compare_result operator()(const_data_view one, const_data_view other) const;
} compare{};

constexpr struct create_delta_operation {
    create_delta_result operator()(const_data_view one, const_data_view other, data_view delta) const;
} create_delta{};

constexpr struct apply_delta_operation {
    apply_delta_result operator()(const_data_view delta, data_view target, create_delta_result created) const;
} apply_delta{};

template <typename Path, typename Operation, typename... Buffers>
auto execute(Operation operation, Buffers... buffers) -> decltype(operation(buffers...));

} // namespace dml

#endif

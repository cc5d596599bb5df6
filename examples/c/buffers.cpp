// Jobs straight over a program's own buffers, as buffers.c: a text is copied and compared, and what another text has
// otherwise is written as a delta record and applied to the copy. Its jobs are written as for Intel's C++ interface,
// with another namespace; docs/C.md has the two side by side.
//
//     c++ -std=c++20 -o buffers buffers.cpp $(pkg-config --cflags --libs kazovuni)
#include "kazovuni.hpp"

#include <cstdint>
#include <iostream>
#include <string_view>
#include <vector>

static void tell(const kazovuni::job_result &compared)
{
    if (compared.result == kazovuni::comparison_result::equal)
        std::cout << "compare: no difference\n";
    else
        std::cout << "compare: the first difference is at " << compared.bytes_processed << '\n';
}

int main()
{
    constexpr std::string_view before = "the quick brown fox jumps over the lazy dog now.";
    constexpr std::string_view after = "the quick green fox jumps over the lazy cat now.";
    std::vector<std::uint8_t> old_text(before.begin(), before.end()), new_text(after.begin(), after.end());
    std::vector<std::uint8_t> copy(before.size());
    std::vector<std::uint8_t> delta(copy.size() / 8 * 10); // at most an entry of 10 bytes for each block of 8

    auto moved = kazovuni::execute<kazovuni::software>(
        kazovuni::mem_move, kazovuni::make_view(old_text), kazovuni::make_view(copy));
    if (moved.status != kazovuni::status_code::ok)
        return 1;
    std::cout << "moved " << moved.bytes_processed << " bytes\n";
    tell(kazovuni::compare(old_text, copy)); // an operation may be called as it is, too

    auto compared = kazovuni::execute<kazovuni::software>(
        kazovuni::compare, kazovuni::make_view(new_text), kazovuni::make_view(copy));
    if (compared.status != kazovuni::status_code::ok || compared.result != kazovuni::comparison_result::not_equal)
        return 1;
    tell(compared);

    auto created = kazovuni::execute<kazovuni::software>(
        kazovuni::create_delta, kazovuni::make_view(old_text), kazovuni::make_view(new_text),
        kazovuni::make_view(delta));
    if (created.status != kazovuni::status_code::ok || created.result == kazovuni::comparison_result::overflow)
        return 1;
    std::cout << "create: result " << static_cast<int>(created.result) << ", the record has "
              << created.delta_record_size << " bytes\n";

    auto applied = kazovuni::execute<kazovuni::software>(
        kazovuni::apply_delta, kazovuni::make_view(delta), kazovuni::make_view(copy), created);
    if (applied.status != kazovuni::status_code::ok || copy != new_text)
        return 1;
    std::cout << "apply: " << applied.bytes_processed << " bytes of the record are done\n";
    tell(kazovuni::compare(new_text, copy));
    return 0;
}

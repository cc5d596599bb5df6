// A list of jobs as a loop of calls, as gather.c: a packet is put together from pieces that lie in different places of
// the program, each job after the one before, up to the first that does not end well.
//
//     c++ -std=c++20 -o gather gather.cpp $(pkg-config --cflags --libs kazovuni)
#include "kazovuni.hpp"

#include <array>
#include <cstdint>
#include <cstdio>
#include <functional>
#include <string_view>
#include <vector>

using kazovuni::const_view, kazovuni::job_result, kazovuni::status_code, kazovuni::view;

int main()
{
    constexpr std::string_view header = "from here on: ", trailer = "end.";
    constexpr std::size_t padding = 10;
    std::vector<std::uint8_t> payload(100, 'x');
    std::vector<std::uint8_t> packet(header.size() + payload.size() + padding + trailer.size());

    const_view first = kazovuni::make_view(header), last = kazovuni::make_view(trailer);
    view whole = packet, text = whole.subspan(first.size(), payload.size());
    view dots = whole.subspan(first.size() + payload.size(), padding), end = whole.last(last.size());
    const std::array<std::function<job_result()>, 6> jobs = {
        [&] { return kazovuni::mem_move(first, whole.first(first.size())); },
        [&] { return kazovuni::mem_move(payload, text); },
        [&] { return kazovuni::fill(0x2e2e2e2e2e2e2e2e, dots); },
        [&] { return kazovuni::mem_move(last, end); },
        [&] { return kazovuni::compare.expect_equal()(payload, text); },
        // this one does not end well
        [&] { return kazovuni::compare.expect_equal()(first, whole.last(first.size())); },
    };
    std::size_t done = 0;
    job_result result{};
    for (; done < jobs.size(); done++) {
        result = jobs[done]();
        if (result.status != status_code::ok)
            break;
        std::printf("job %zu: %zu bytes\n", done, result.bytes_processed);
    }
    std::printf("job %zu: status %02x\n", done, static_cast<unsigned>(result.status));
    std::string_view sent(reinterpret_cast<const char *>(packet.data()), packet.size());
    auto shown = sent.substr(0, header.size() + 3), rest = sent.substr(sent.size() - padding - trailer.size());
    std::printf("%.*s...%.*s\n", int(shown.size()), shown.data(), int(rest.size()), rest.data());
    return done == 5 && sent.ends_with(trailer) ? 0 : 1;
}

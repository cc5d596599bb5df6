// A page fault, the page brought, the rest carried out, as fault.c: a move between pages that are brought only when the
// move asks for them. The engine and its image of memory are held by an object.
//
//     c++ -std=c++20 -o fault fault.cpp $(pkg-config --cflags --libs kazovuni)
#include "kazovuni.h"

#include <algorithm>
#include <array>
#include <iostream>
#include <linux/idxd.h>
#include <optional>
#include <stdexcept>
#include <vector>

constexpr uint32_t page_bytes = KAZOVUNI_PAGE_BYTES;
using Descriptor = std::array<uint8_t, KAZOVUNI_DESCRIPTOR_BYTES>;
using Record = std::array<uint8_t, KAZOVUNI_RECORD_BYTES>;

// An engine; it is freed with the object, which is not copied: of two copies of a handle one alone may be used.
class Engine {
public:
    Engine(uint32_t pages, uint32_t staging) { expect(kazovuni_create(&handle, pages, staging)); }
    ~Engine() { kazovuni_free(&handle); }
    Engine(const Engine &) = delete;
    Engine &operator=(const Engine &) = delete;

    void bring(uint32_t page, const uint8_t *bytes) { expect(kazovuni_bring(&handle, page, bytes)); }

    Record submit(const Descriptor &descriptor)
    {
        Record record;
        expect(kazovuni_submit(&handle, descriptor.data(), record.data()));
        return record;
    }

    std::vector<uint8_t> read(uint64_t address, size_t length)
    {
        std::vector<uint8_t> bytes(length);
        expect(kazovuni_read(&handle, address, bytes.data(), length));
        return bytes;
    }

private:
    static void expect(uint8_t answer)
    {
        if (answer != KAZOVUNI_OK)
            throw std::runtime_error("kazovuni answered " + std::to_string(answer));
    }

    kazovuni_engine handle{}; // zeroed before its first call
};

// What is left of a job after a page fault; none where nothing is.
static std::optional<Descriptor> rest(const Descriptor &descriptor, const Record &record)
{
    Descriptor left;
    return kazovuni_rest(descriptor.data(), record.data(), left.data()) ? std::optional(left) : std::nullopt;
}

int main()
{
    constexpr uint32_t pages = 4, source = 1000, target = 9000, size = 6000;
    std::vector<uint8_t> store(pages * page_bytes); // where the pages come from
    for (size_t i = 0; i < store.size(); i++)
        store[i] = static_cast<uint8_t>(i % 251);

    Engine engine(pages, size); // a move needs as many bytes of staging as it moves
    engine.bring(0, store.data()); // page 0 is there from the start, the others are not
    kazovuni_job job{.opcode = DSA_OPCODE_MEMMOVE, .source = source, .target = target, .size = size};
    Descriptor first;
    uint32_t done = 0;
    std::optional<Descriptor> left = kazovuni_encode(&job, first.data()) ? std::optional(first) : std::nullopt;
    while (left) {
        Record answered = engine.submit(*left);
        kazovuni_record record{};
        kazovuni_record_decode(answered.data(), &record);
        done += record.completed;
        left = rest(*left, answered);
        if (!left)
            break;
        std::cout << "page fault on a " << (record.status & DSA_COMP_STATUS_WRITE ? "write" : "read") << " of "
                  << record.fault << ", " << done << " bytes done\n";
        uint64_t page = record.fault / page_bytes;
        if (page >= store.size() / page_bytes)
            return 1;
        engine.bring(static_cast<uint32_t>(page), store.data() + page * page_bytes);
    }
    std::cout << done << " bytes done\n";

    auto moved = engine.read(target, size);
    return done == size && std::equal(moved.begin(), moved.end(), store.begin() + source) ? 0 : 1;
}

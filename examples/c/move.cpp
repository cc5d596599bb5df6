// A buffer moved over itself, as move.c: room for a word is made in a text, the word is put in, and the room is closed
// again.
//
//     c++ -std=c++20 -o move move.cpp $(pkg-config --cflags --libs kazovuni)
#include "kazovuni.h"

#include <cstring>
#include <iostream>
#include <linux/idxd.h>
#include <stdexcept>
#include <string_view>

// Memory that jobs may touch: whole pages, that begin at a multiple of a page. Addresses are the program's pointers.
class Memory {
public:
    char *at(size_t place) { return reinterpret_cast<char *>(bytes + place); }

    // Moves bytes, also over themselves; true where they were taken from the last one downwards.
    bool move(char *target, const char *source, size_t size)
    {
        dsa_hw_desc descriptor{};
        descriptor.opcode = DSA_OPCODE_MEMMOVE;
        descriptor.src_addr = reinterpret_cast<uintptr_t>(source);
        descriptor.dst_addr = reinterpret_cast<uintptr_t>(target);
        descriptor.xfer_size = static_cast<uint32_t>(size);
        dsa_completion_record record{};
        uint32_t staging = descriptor.xfer_size; // a move needs as many bytes as it moves
        uint8_t answer = kazovuni_submit_pointers(
            reinterpret_cast<uintptr_t>(bytes), bytes, sizeof bytes, reinterpret_cast<uint8_t *>(&descriptor), staging,
            reinterpret_cast<uint8_t *>(&record));
        if (answer != KAZOVUNI_OK || record.status != DSA_COMP_SUCCESS || record.bytes_completed != size)
            throw std::runtime_error("the move was not done");
        return record.result == 1;
    }

private:
    alignas(KAZOVUNI_PAGE_BYTES) uint8_t bytes[2 * KAZOVUNI_PAGE_BYTES] = {};
};

static void expect(std::string_view text, std::string_view wanted)
{
    std::cout << text << '\n';
    if (text != wanted)
        throw std::runtime_error("another text is there");
}

static void tell(size_t size, bool is_backward)
{
    std::cout << "moved " << size << " bytes from the "
              << (is_backward ? "last to the first" : "first to the last") << '\n';
}

int main()
{
    static Memory memory;
    constexpr std::string_view word = "brown ", end = "fox jumps";
    char *text = memory.at(KAZOVUNI_PAGE_BYTES - 16); // it goes over the edge between the two pages
    char *place = text + std::string_view("the quick ").size();
    size_t size = end.size() + 1;
    std::strcpy(text, "the quick fox jumps");
    expect(text, "the quick fox jumps");

    tell(size, memory.move(place + word.size(), place, size)); // upwards, into the buffer's own bytes
    std::memcpy(place, word.data(), word.size());
    expect(text, "the quick brown fox jumps");

    tell(size, memory.move(place, place + word.size(), size)); // and downwards again
    expect(text, "the quick fox jumps");
}

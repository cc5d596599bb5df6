// Two versions of a page compared, and a delta record made of them and applied elsewhere, as delta.c: so a replica is
// kept up to date without the whole page being sent.
//
//     c++ -std=c++20 -o delta delta.cpp $(pkg-config --cflags --libs kazovuni)
#include "kazovuni.h"

#include <algorithm>
#include <iostream>
#include <linux/idxd.h>
#include <stdexcept>
#include <string_view>
#include <vector>

constexpr uint32_t page = KAZOVUNI_PAGE_BYTES;

// Whole pages that are lent to each job; addresses are offsets from the first byte.
class Memory {
public:
    explicit Memory(size_t pages) : bytes(pages * page) {}

    auto at(size_t place) { return bytes.begin() + static_cast<std::ptrdiff_t>(place); }

    // Carries out a job, and answers its record, which must have status 01.
    kazovuni_record submit(const kazovuni_job &job)
    {
        uint8_t descriptor[KAZOVUNI_DESCRIPTOR_BYTES], answered[KAZOVUNI_RECORD_BYTES];
        kazovuni_record record{};
        if (!kazovuni_encode(&job, descriptor))
            throw std::runtime_error("the flags do not fit");
        auto staging = static_cast<uint32_t>(kazovuni_need(descriptor));
        if (kazovuni_submit_over(bytes.data(), bytes.size(), descriptor, staging, answered) != KAZOVUNI_OK ||
            !kazovuni_record_decode(answered, &record) || record.status != DSA_COMP_SUCCESS)
            throw std::runtime_error("the job was not done");
        return record;
    }

private:
    std::vector<uint8_t> bytes;
};

int main()
{
    Memory here(3), there(2); // two memories stand for two machines
    constexpr uint32_t old_page = 0, new_page = page, delta = 2 * page; // here
    constexpr uint32_t copy = 0, arrived = page;                        // there
    for (uint32_t i = 0; i < page; i++)
        *here.at(old_page + i) = *here.at(new_page + i) = *there.at(copy + i) = static_cast<uint8_t>(i / 8);
    constexpr std::string_view changed = "changed";
    std::copy(changed.begin(), changed.end(), here.at(new_page + 100)); // in the blocks of 8 numbered 12 and 13
    std::copy(changed.begin(), changed.end(), here.at(new_page + 4000)); // in block 500

    auto compared = here.submit({.opcode = DSA_OPCODE_COMPARE, .source = old_page, .target = new_page, .size = page});
    std::cout << "compare: result " << +compared.result << ", the first difference is at " << compared.completed
              << '\n';

    auto created = here.submit({.opcode = DSA_OPCODE_CR_DELTA, .source = old_page, .target = new_page, .extra = delta,
                                .size = page, .delta_size = 400}); // with more than 400 bytes, better send the page
    std::cout << "create: result " << +created.result << ", the record has " << created.delta_size << " bytes\n";
    if (compared.result != 1 || compared.completed != 100 || created.result != 1 || created.delta_size != 30)
        return 1;

    std::copy_n(here.at(delta), created.delta_size, there.at(arrived)); // this is what is sent

    auto applied = there.submit({.opcode = DSA_OPCODE_AP_DELTA, .source = arrived, .target = copy, .size = page,
                                 .delta_size = created.delta_size});
    std::cout << "apply: " << applied.completed << " bytes of the record are done\n";

    bool are_equal = std::equal(here.at(new_page), here.at(new_page + page), there.at(copy));
    std::cout << "the copy " << (are_equal ? "is" : "is not") << " the new page\n";
    return are_equal ? 0 : 1;
}

// Which pages has a program used? The program of consumer.c in C++11, built outside the repository with the installed storage unit: a class
// owns the bytes and lends them to each request.
#include <storage_unit.h>

#include <array>
#include <cstddef>
#include <cstdint>
#include <cstdlib>
#include <iostream>
#include <string>
#include <vector>

namespace {

constexpr std::uint32_t page_length = 4096;
constexpr std::uint32_t pages = 4;
constexpr std::uint8_t program_key = 5; // PSW key of the program, and the access control of its own pages

enum Processor : std::uint32_t { control, program };

class Machine {
public:
    Machine(std::uint32_t settings, std::size_t storage_length)
        : settings_(settings), storage_(storage_length), keys_(storage_unit_key_count(settings, storage_length)), records_()
    {
    }

    // What is lent to a request.
    storage_unit_machine lent()
    {
        storage_unit_machine machine;
        machine.settings = settings_;
        machine.storage = storage_.data();
        machine.storage_length = storage_.size();
        machine.keys = keys_.data();
        machine.keys_length = keys_.size();
        machine.records = records_.data();
        machine.records_length = records_.size();
        return machine;
    }

    std::uint8_t *record(Processor processor)
    {
        return storage_unit_record(records_.data(), processor);
    }

private:
    std::uint32_t settings_;
    std::vector<std::uint8_t> storage_;
    std::vector<std::uint8_t> keys_;
    std::array<std::uint8_t, STORAGE_UNIT_RECORDS_LENGTH> records_;
};

// Prints an answer: its number in words, and where there is one the place.
void report(const std::string &what, std::uint64_t answer)
{
    const std::uint32_t number = storage_unit_number(answer);

    std::cout << "  " << what << ": " << storage_unit_message(number);
    if (number == STORAGE_UNIT_NUMBER_ADDRESSING || number == STORAGE_UNIT_NUMBER_PROTECTION) {
        std::cout << ", first at byte " << storage_unit_place(answer);
    }
    std::cout << '\n';
}

// The pages at 4096 and 8192 are the program's. It may fetch from the one at 12288.
void give_pages(Machine &owner)
{
    const storage_unit_machine machine = owner.lent();

    for (std::uint32_t page = 0; page < pages; page++) {
        const std::uint32_t key = page == 1 || page == 2 ? program_key * 16u : 0x90u;
        storage_unit_sske(&machine, control, key, page * page_length);
    }
    storage_unit_put_record(owner.record(program), program_key, STORAGE_UNIT_PROBLEM, 0, 0);
}

void run_program(Machine &owner)
{
    const storage_unit_machine machine = owner.lent();
    const std::array<std::uint8_t, 4> total = {{0x00, 0x01, 0x23, 0x4C}};
    std::vector<std::uint8_t> bytes(4);

    report("store of 4 bytes at 8190", storage_unit_store_bytes(&machine, program, 8190, total.data(), total.size()));
    report("fetch of 4 bytes at 12288", storage_unit_fetch_bytes(&machine, program, 12288, bytes.data(), bytes.size()));
    report("store of 4 bytes at 12286", storage_unit_store_bytes(&machine, program, 12286, total.data(), total.size()));
    report("fetch of 4 bytes at 16381", storage_unit_fetch_bytes(&machine, program, 16381, bytes.data(), bytes.size()));
    report("SET PREFIX", storage_unit_set_prefix(&machine, program, 8192));
}

// RRBE leaves 2 x reference bit + change bit as the condition code.
void show_page(Machine &owner, std::uint32_t page)
{
    const storage_unit_machine machine = owner.lent();

    storage_unit_rrbe(&machine, control, page * page_length);
    const std::uint8_t code = storage_unit_code(owner.record(control));
    std::cout << "  page at " << page * page_length << ": " << ((code & 2u) != 0 ? "referenced" : "not referenced") << ", "
              << ((code & 1u) != 0 ? "changed" : "not changed") << '\n';
}

} // namespace

int main()
{
    if (storage_unit_version() != STORAGE_UNIT_VERSION) {
        std::cout << "The library is not of the header's version, " << STORAGE_UNIT_VERSION_TEXT << ".\n";
        return EXIT_FAILURE;
    }
    Machine owner(STORAGE_UNIT_EXTENSIONS, pages * page_length);
    const storage_unit_machine machine = owner.lent();

    give_pages(owner);
    std::cout << "A program in problem state with PSW key 5:\n";
    run_program(owner);
    std::cout << "The control program after it:\n";
    for (std::uint32_t page = 0; page < pages; page++) {
        show_page(owner, page);
    }
    report("STORE PREFIX of processor 2", storage_unit_store_prefix(&machine, 2));
    return EXIT_SUCCESS;
}

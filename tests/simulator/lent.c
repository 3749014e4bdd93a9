#include "lent.h"

#include "microword.h"

avm_answer numbered(uint64_t number, uint64_t at)
{
    avm_answer answer = {number, at, {0}, {0}};

    return answer;
}

bool is_power_of_two_in_range(size_t m)
{
    size_t power;

    for (power = 16; power <= 16384; power *= 2)
        if (m == power)
            return true;
    return false;
}

avm_answer test_machine(size_t m, const uint32_t *registers, size_t count)
{
    if (!is_power_of_two_in_range(m))
        return numbered(AVM_BAD_MEMORY_LENGTH, 0);
    if (count != 32)
        return numbered(AVM_BAD_REGISTER_COUNT, 0);
    if (registers[0] != 0)
        return numbered(AVM_REGISTER_0_NOT_ZERO, 0);
    return numbered(AVM_DONE, 0);
}

avm_answer test_program(const uint64_t *program, size_t words)
{
    size_t word;

    if (words < 1 || words > 64)
        return numbered(AVM_BAD_PROGRAM_LENGTH, 0);
    for (word = 0; word < words; word++)
        if (!microword_is_legal(program[word]))
            return numbered(AVM_BAD_MICROWORD, word);
    return numbered(AVM_DONE, 0);
}

avm_answer test_requests(const uint8_t *requests, size_t bytes, uint8_t highest)
{
    size_t place;

    for (place = 0; place < bytes; place++)
        if (requests[place] > highest)
            return numbered(AVM_BAD_REQUEST, place);
    return numbered(AVM_DONE, 0);
}

bool interrupt_line(uint8_t request)
{
    return request & 1;
}

#include "bytes.h"

uint8_t take_byte(struct bytes *bytes)
{
    if (bytes->left == 0)
        return 0;
    bytes->left--;
    return *bytes->next++;
}

uint64_t take_number(struct bytes *bytes, unsigned length)
{
    uint64_t number = 0;

    while (length-- > 0)
        number = number << 8 | take_byte(bytes);
    return number;
}

uint32_t take_word(struct bytes *bytes)
{
    uint8_t form = take_byte(bytes);

    if (form >= 128)
        return (uint32_t)take_number(bytes, 4);
    if (form < 64)
        return form;
    return (form < 96 ? 0u : 0x80000000u) + form % 32u - 16u;
}

bool take_chance(struct bytes *bytes, unsigned of_256)
{
    return take_byte(bytes) >= 256 - of_256;
}

#include "image.h"

#include "numbers.h"

bool read_image(const struct text *text, uint32_t *memory, size_t m, struct complaint *complaint)
{
    avm_answer answer = avm_read(memory, m, (const uint8_t *)text->bytes, text->length);
    char words[WORDS_ROOM];

    if (answer.number == AVM_DONE)
        return true;
    tell_read(answer, m, text->bytes, text->length, words);
    return complain(complaint, BAD_FILE, text->name, (size_t)answer.at, "%s", words);
}

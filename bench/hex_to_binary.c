/* hex_to_binary TEXT BINARY: an image of AVM_WORDS_MOST words from Intel HEX to bytes, by avm_read. What a C author would write, to be
   measured as a whole process; see bench/README.md. */
#include <stdio.h>

#include "../include/schoonleech.h"

static uint32_t memory[AVM_WORDS_MOST];
static uint8_t text[AVM_TEXT_MOST + 1], binary[4 * AVM_WORDS_MOST];

static int give_up(const char *what, const char *name)
{
    fprintf(stderr, "hex_to_binary: %s %s\n", what, name);
    return 1;
}

static int load(const char *name, size_t *bytes)
{
    FILE *file = fopen(name, "rb");
    int failed;

    if (file == NULL)
        return 0;
    *bytes = fread(text, 1, sizeof text, file);
    failed = ferror(file);
    return fclose(file) == 0 && !failed;
}

static int save(const char *name)
{
    FILE *file = fopen(name, "wb");

    return file != NULL && fwrite(binary, 1, sizeof binary, file) == sizeof binary && fclose(file) == 0;
}

int main(int count, char **words)
{
    avm_answer answer;
    size_t bytes, word;

    if (count != 3)
        return give_up("wants", "TEXT BINARY");
    if (!load(words[1], &bytes))
        return give_up("can't read", words[1]);
    answer = avm_read(memory, AVM_WORDS_MOST, text, bytes);
    if (answer.number != AVM_DONE) {
        fprintf(stderr, "hex_to_binary: refused %d line %lu\n", (int)answer.number, (unsigned long)answer.at);
        return 1;
    }
    for (word = 0; word < AVM_WORDS_MOST; word++) {
        binary[4 * word] = (uint8_t)(memory[word] >> 24);
        binary[4 * word + 1] = (uint8_t)(memory[word] >> 16);
        binary[4 * word + 2] = (uint8_t)(memory[word] >> 8);
        binary[4 * word + 3] = (uint8_t)memory[word];
    }
    return save(words[2]) ? 0 : give_up("can't write", words[2]);
}

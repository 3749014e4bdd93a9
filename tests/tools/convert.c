/* Images between files, by the engine's C calls, for comparison with other tools. A binary file has the words of a memory, the most
   significant byte of each first, and its length says how many there are.

       convert draw SEED WORDS BINARY   a drawn memory
       convert read TEXT BINARY         reads the text into the memory that the file holds, and writes it back
       convert write BINARY TEXT        writes the memory as text

   The last two print the answer's number and at. They write no file where the call is refused. */
#include <stdio.h>
#include <stdlib.h>
#include <string.h>

#include "../../include/schoonleech.h"
#include "../engine/check.h"

static uint32_t memory[AVM_WORDS_MOST];

/* A word and a byte more than may be, so that a file that is too long is seen to be. */
static uint8_t binary[4 * AVM_WORDS_MOST + 4], text[AVM_TEXT_MOST + 1];

static void give_up(const char *why, const char *name)
{
    fprintf(stderr, "convert: %s %s\n", why, name);
    exit(2);
}

static size_t load(const char *name, uint8_t *to, size_t room)
{
    FILE *file = fopen(name, "rb");
    size_t bytes;

    if (file == NULL)
        give_up("can't read", name);
    bytes = fread(to, 1, room, file);
    if (ferror(file))
        give_up("can't read", name);
    fclose(file);
    return bytes;
}

static void save(const char *name, const uint8_t *from, size_t bytes)
{
    FILE *file = fopen(name, "wb");

    if (file == NULL || fwrite(from, 1, bytes, file) != bytes || fclose(file) != 0)
        give_up("can't write", name);
}

/* Answers the number of words. A file is never cut to fit: the calls and another tool would then not have the same image. */
static size_t load_memory(const char *name)
{
    size_t size = load(name, binary, sizeof binary), word;
    const uint8_t *bytes = binary;

    if (size > 4 * AVM_WORDS_MOST)
        give_up("there is no memory as large as", name);
    if (size % 4 != 0)
        give_up("there is a part of a word at the end of", name);
    for (word = 0; word < size / 4; word++, bytes += 4)
        memory[word] = (uint32_t)bytes[0] << 24 | (uint32_t)bytes[1] << 16 | (uint32_t)bytes[2] << 8 | bytes[3];
    return size / 4;
}

static void save_memory(const char *name, size_t words)
{
    size_t place;

    for (place = 0; place < 4 * words; place++)
        binary[place] = (uint8_t)(memory[place / 4] >> (24 - place % 4 * 8));
    save(name, binary, 4 * words);
}

static void print(avm_answer answer)
{
    printf("%llu %llu\n", (unsigned long long)answer.number, (unsigned long long)answer.at);
}

static void draw(const char *seed, const char *words, const char *name)
{
    struct dice dice = dice_for(strtoull(seed, NULL, 10), 0);
    size_t count = strtoul(words, NULL, 10), word;

    for (word = 0; word < count && word < AVM_WORDS_MOST; word++)
        memory[word] = (uint32_t)dice_next(&dice);
    save_memory(name, word);
}

static void read_text(const char *from, const char *to)
{
    size_t words = load_memory(to);
    avm_answer answer = avm_read(memory, words, text, load(from, text, sizeof text));

    print(answer);
    if (answer.number == AVM_DONE)
        save_memory(to, words);
}

static void write_text(const char *from, const char *to)
{
    avm_answer answer = avm_write(memory, load_memory(from), text, sizeof text);

    print(answer);
    if (answer.number == AVM_DONE)
        save(to, text, answer.at);
}

int main(int count, char **words)
{
    if (count == 5 && strcmp(words[1], "draw") == 0)
        draw(words[2], words[3], words[4]);
    else if (count == 4 && strcmp(words[1], "read") == 0)
        read_text(words[2], words[3]);
    else if (count == 4 && strcmp(words[1], "write") == 0)
        write_text(words[2], words[3]);
    else
        give_up("draw SEED WORDS BINARY, read TEXT BINARY or write BINARY TEXT, not", count > 1 ? words[1] : "nothing");
    return 0;
}

/* How much stack a call takes: it runs on a stack of its own, which is painted before and looked at after. */
#define _XOPEN_SOURCE 700

#include "hand.h"
#include "images.h"

#include <string.h>
#include <ucontext.h>

enum { PAINT = 0xA5, SOME_HUNDRED_BYTES = 512 };

/* Room for copies of the largest memory and of the longest text, so that a call that makes them is measured and does not run over. */
static unsigned char ground[1 << 20];
static ucontext_t caller, painted;
static struct inputs store;
static struct lent_image image;
static avm_answer answer;

static void nothing(void)
{
}

static void a_check(void)
{
    avm_check(store.program, store.words);
}

static void a_read(void)
{
    answer = avm_read(image.memory, image.m, image.text, image.bytes);
}

static void a_write(void)
{
    answer = avm_write(image.memory, image.m, image.text, image.bytes);
}

/* Bytes of the painted stack from its base to the deepest one that changed. A stack grows downward. What is measured is the second call:
   the first may have to find a function of the C library, which takes more stack than the call itself. */
static size_t depth_of(void (*body)(void))
{
    size_t untouched = 0;

    body();
    memset(ground, PAINT, sizeof ground);
    expect(getcontext(&painted) == 0, "a context");
    painted.uc_stack.ss_sp = ground;
    painted.uc_stack.ss_size = sizeof ground;
    painted.uc_link = &caller;
    makecontext(&painted, body, 0);
    expect(swapcontext(&caller, &painted) == 0, "a change of context");
    while (untouched < sizeof ground && ground[untouched] == PAINT)
        untouched++;
    return sizeof ground - untouched;
}

/* Every word jop: walks stand on 32 words for 64 microcycles, and each leads to all of them. */
static void fill_with_jop(void)
{
    size_t place;

    start_store(&store, 64);
    for (place = 0; place < store.words; place++)
        lead(&store, place, COND_JOP, 0);
}

static void little_stack(void)
{
    size_t base = depth_of(nothing), published, circling;

    start(&store);
    publish(&store);
    published = depth_of(a_check) - base;
    fill_with_jop();
    circling = depth_of(a_check) - base;
    expect(published <= SOME_HUNDRED_BYTES, "the published microprogram took %zu bytes", published);
    expect(circling <= SOME_HUNDRED_BYTES, "a circle took %zu bytes", circling);
    remark(" (%zu and %zu bytes)", published, circling);
}

/* Expects the answer of a call of an image, and little stack. Answers how much. */
static size_t stack_of_image_call(void (*body)(void), avm_answer want, const char *what)
{
    size_t depth = depth_of(body) - depth_of(nothing);

    expect_same_answer("engine", answer, want);
    expect(depth <= SOME_HUNDRED_BYTES, "%s took %zu bytes", what, depth);
    return depth;
}

/* The largest memory has 65536 bytes and its text 180236. The text that is refused is so in its last line, the end record, with a wrong
   last digit of the sum, after all of the image. */
static void images_in_place(void)
{
    const size_t needed = AVM_WRITTEN(AVM_WORDS_MOST);
    size_t written, without_room, read, not_read;

    start_image(&image, AVM_WORDS_MOST);
    image.bytes = needed;
    written = stack_of_image_call(a_write, taken(needed), "a write");
    read = stack_of_image_call(a_read, taken(0), "a read");
    image.text[needed - 2] = 'E';
    not_read = stack_of_image_call(a_read, refused(AVM_BAD_SUM, AVM_WORDS_MOST / 4 + 1), "a refused read");
    image.bytes = needed - 1;
    without_room = stack_of_image_call(a_write, refused(AVM_NO_ROOM, needed), "a refused write");
    remark(" (%zu and %zu bytes, refused %zu and %zu)", read, written, not_read, without_room);
}

const struct test stack_tests[] = {
    {"a check takes no more than some hundred bytes of stack", little_stack},
    {"the largest image is read, refused and written with some hundred bytes of stack: no copy of memory or text", images_in_place},
    {NULL, NULL},
};

/* The fuzzer's target: an input's first byte chooses a call, and the rest becomes what the call is lent. The engine and the second
   simulator are called on copies of that, and where an answer or a lent place differs the program stops. tests/fuzz.sh builds and runs
   it. */
#include <stdio.h>
#include <stdlib.h>
#include <string.h>

#include "../engine/comparing.h"
#include "../engine/hand.h"
#include "../engine/returns.h"
#include "lending.h"

static struct lent_image image;

static void run(struct bytes *bytes, enum side side)
{
    take_program(bytes, &drawn);
    take_machine(bytes, &drawn, 3);
    compare_call(call_run, side);
}

/* A call for each request byte, all of them on the same places. */
static void compare_each(one_request_call *call, enum side side)
{
    struct both both = lend_both(side);
    size_t place;

    for (place = 0; place < drawn.bytes && holds_so_far(); place++)
        compare_next(call, &both, drawn.requests[place]);
    expect_nothing_beyond("engine");
}

static void phases(struct bytes *bytes, enum side side)
{
    take_program(bytes, &drawn);
    take_machine(bytes, &drawn, 3);
    compare_each(call_phase, side);
}

static void steps(struct bytes *bytes, enum side side)
{
    drawn.words = 0;
    take_machine(bytes, &drawn, 1);
    compare_call(call_steps, side);
}

static void check(struct bytes *bytes, enum side side)
{
    take_store(bytes, &drawn);
    compare_check(side);
}

static void read_raw_text(struct bytes *bytes, enum side side)
{
    take_image(bytes, &image, take_raw_text);
    compare_read(&image, side);
}

static void read_records(struct bytes *bytes, enum side side)
{
    take_image(bytes, &image, take_record_text);
    compare_read(&image, side);
}

static void write_memory(struct bytes *bytes, enum side side)
{
    take_room(bytes, &image);
    compare_write(&image, side);
}

static void board_microcycles(struct bytes *bytes, enum side side)
{
    take_program(bytes, &drawn);
    take_machine(bytes, &drawn, 3);
    drawn.board = board_of(drawn.registers, drawn.state);
    compare_each(call_board_microcycle, side);
}

static void board_instructions(struct bytes *bytes, enum side side)
{
    drawn.words = 0;
    take_machine(bytes, &drawn, 1);
    drawn.board = board_of(drawn.registers, drawn.state);
    compare_each(call_board_instruction, side);
}

/* A machine that is refused has no returns. */
static void returns(struct bytes *bytes, enum side side)
{
    publish(&drawn);
    take_machine(bytes, &drawn, 3);
    publish(&drawn);
    if (compare_call(call_run, side).number == AVM_DONE)
        compare_returns(side);
}

static const struct {
    const char *name;
    void (*compare)(struct bytes *bytes, enum side side);
} calls[] = {
    {"avm_run", run},
    {"avm_phase", phases},
    {"avm_steps", steps},
    {"avm_check", check},
    {"avm_read of any text", read_raw_text},
    {"avm_read of records", read_records},
    {"avm_write", write_memory},
    {"a run of the published microprogram against steps", returns},
    {"avm_board_microcycle", board_microcycles},
    {"avm_board_instruction", board_instructions},
};

/* Fuzzing shows something only where every answer came. */
static void tell_answers(void)
{
    size_t number;

    printf("answers:");
    for (number = AVM_DONE; number <= AVM_WALK_NOT_BACK; number++)
        printf(" %zu*%llu", number, (unsigned long long)times_seen(number));
    printf("\n");
    for (number = AVM_DONE; number <= AVM_WALK_NOT_BACK; number++)
        if (times_seen(number) == 0)
            printf("no input was answered with %zu\n", number);
    fflush(stdout);
}

int LLVMFuzzerInitialize(int *count, char ***words);
int LLVMFuzzerTestOneInput(const uint8_t *data, size_t size);

int LLVMFuzzerInitialize(int *count, char ***words)
{
    (void)count;
    (void)words;
    return atexit(tell_answers);
}

int LLVMFuzzerTestOneInput(const uint8_t *data, size_t size)
{
    struct bytes bytes = {data, size};
    uint8_t choice = take_byte(&bytes);
    size_t call = choice % COUNT(calls);

    memset(&drawn, 0, sizeof drawn);
    calls[call].compare(&bytes, choice < 128 ? AT_END : AT_START);
    if (!holds_so_far()) {
        printf("differs: %s\n", calls[call].name);
        fflush(stdout);
        abort();
    }
    return 0;
}

/* Seeded random comparisons of the engine with the second simulator, every place lent between guard pages. */
#ifndef ENGINE_COMPARING_H
#define ENGINE_COMPARING_H

#include "check.h"
#include "images.h"
#include "places.h"

/* The inputs of the case that stands, and a copy of them to work on. */
extern struct inputs drawn, own;

/* Draws the inputs of a case. What it does not draw is left over from the case before, so no comparison may read that. */
typedef void one_draw(struct dice *dice, struct inputs *inputs);

/* Compares the drawn inputs on both, lent on a side; answers how much was compared. */
typedef uint64_t one_case(struct dice *dice, enum side side);

/* Draws and compares that many cases; answers how much was compared in all. What was seen before is forgotten. */
uint64_t compare_cases(uint64_t seed, uint64_t cases, one_case *compare);

/* The same with another way to draw than draw_inputs. */
uint64_t compare_drawn(uint64_t seed, uint64_t cases, one_draw *draw, one_case *compare);

/* The drawn inputs, lent to the engine and in a copy of one's own. */
struct both {
    struct places lent, mine;
};

struct both lend_both(enum side side);

/* Expects equal answers, and notes the number. */
void compare_answers(avm_answer got, avm_answer want);

/* Compare one call on the drawn inputs, lent on a side: its answer, every lent place and what lies around them. Answer what the second
   simulator does. The call is one of those of places.h; avm_check is lent the program alone. */
typedef avm_answer one_call(const struct implementation *implementation, const struct places *places);

avm_answer compare_call(one_call *call, enum side side);
avm_answer compare_check(enum side side);

/* The same of a call with one request, in a sequence of calls on places that both have; what lies around them is left to the caller. */
typedef avm_answer one_request_call(const struct implementation *implementation, const struct places *places, uint8_t request);

avm_answer compare_next(one_request_call *call, const struct both *both, uint8_t request);

/* The same of an image that is read and of one that is written. */
avm_answer compare_read(const struct lent_image *image, enum side side);
avm_answer compare_write(const struct lent_image *image, enum side side);

/* A comparison shows something only where each of these answers came. */
void expect_seen(size_t lowest, size_t highest);

/* How many cases were answered with that number. */
uint64_t times_seen(size_t number);

/* Expects that at least so much was compared, by as many rounds as there are, and says how much in the test's line. */
void expect_compared(uint64_t compared, uint64_t least, const char *what);

/* One step of the second simulator on one's own places; it is noted. */
void step_alone(const struct places *mine, uint8_t request);

/* Notes a step that is about to be done: the PSW before it, the word of memory at PC, and its request. */
void note_step(uint32_t psw, uint32_t word, bool request);

/* A comparison of steps shows something only where every instruction and the interrupt step came in both modes, and requests in vain. */
void expect_every_step_seen(void);

#endif

/* Schoonleech: a simulated AVM-1, for C99 and C++.

   AVM-1 is the microprogrammed processor of chapter 5 of P. J. Windley's dissertation (1990). docs/AVM1.md has its tables, and
   docs/DECISIONS.md what those leave open. docs/GRADER.md leads from here to a marked program and says what to tell a student.

   A caller lends places: a microprogram, memory, registers, a block of state words, a board, text. A call reads them, changes some of them
   where they stand and returns an avm_answer. It keeps nothing for the next call. avm_published alone is lent nothing and returns a
   microword. All of them are in one archive, libschoonleech.a, which `rt lib` writes to out/ where it is called in crates/schoonleech.

   - A slice is a pointer and a number of elements. A slice of length 0 may come with NULL.
   - A block with a fixed size (state, latches, mir, phase, board) has no length. It may not be NULL.
   - No two lent places of a call may overlap, and each must be as long as the call is told.
   - "As lent" means: the same bytes as before the call. A place behind a pointer to const is always as lent. */

#ifndef SCHOONLEECH_H
#define SCHOONLEECH_H

#include <stddef.h>
#include <stdint.h>

#ifdef __cplusplus
extern "C" {
#endif

/* The version of this header and of the archive that is built beside it. The parts move so:

   AVM_VERSION_MAJOR  with a change of layout or meaning: a program that was written against the version before may have to change
   AVM_VERSION_MINOR  with something new beside what there was, which keeps its layout and its meaning
   AVM_VERSION_PATCH  with a change that no program can notice except by its speed, such as a changed comment

   A part that moves sets those after it to 0. AVM_VERSION is all three in one number that #if can compare, two digits for each of the last
   two: it is 10203 for version 1.2.3. */
#define AVM_VERSION_MAJOR 1
#define AVM_VERSION_MINOR 0
#define AVM_VERSION_PATCH 0
#define AVM_VERSION (AVM_VERSION_MAJOR * 10000 + AVM_VERSION_MINOR * 100 + AVM_VERSION_PATCH)

/* Limits. */
#define AVM_REGISTERS 32       /* registers, no more and no fewer                                 */
#define AVM_WORDS_FEWEST 16    /* 32-bit words of memory: a power of two, at least this           */
#define AVM_WORDS_MOST 16384   /* .. and at most this                                             */
#define AVM_PROGRAM_MOST 64    /* microwords of a microprogram: at least 1 and at most this       */
#define AVM_FETCH 0            /* the fetch address: MPC is here between two instructions         */
#define AVM_WALK_MOST 64       /* microcycles of the longest walk that avm_check accepts          */
#define AVM_TEXT_MOST 262144   /* bytes of an image's text that is read: at most this             */

/* Bytes of the text that avm_write makes of a memory of m words. A constant where m is one, so it can be the length of an array. */
#define AVM_WRITTEN(m) ((size_t)11 * (size_t)(m) + (size_t)12)

/* Bits of a request byte. A microcycle takes both of them, one or neither, a step the first or none. */
#define AVM_REQUEST_INTERRUPT 1u
#define AVM_REQUEST_RESET 2u

/* Numbers of an answer. Numbers 1 to 7 are tested before anything is done, the lowest first, and the first that applies is the answer:
   all lent places are then as lent. After 8 the completed microcycles of a run stay; see each call. avm_steps and avm_board_instruction
   have no microprogram and no phase, so they never answer 4, 5, 6 or 8. A board has all its registers, so its calls never answer 2.
   avm_check is lent a microprogram alone and runs nothing: it tests 4, 5, 17 and 18, in that order, and no other call answers 17 or 18.
   Numbers 9 to 16 are about images, and after each of them all lent places are as lent: avm_read tests 1, then 9, then 10 to 15 line after
   line; avm_write tests 1 and then 16. */
enum {
    AVM_DONE = 0,                 /* nothing was refused                                                                    */
    AVM_BAD_MEMORY_LENGTH = 1,    /* m is not a power of two from AVM_WORDS_FEWEST to AVM_WORDS_MOST                        */
    AVM_BAD_REGISTER_COUNT = 2,   /* count is not AVM_REGISTERS                                                             */
    AVM_REGISTER_0_NOT_ZERO = 3,  /* register 0 holds something other than 0                                                */
    AVM_BAD_PROGRAM_LENGTH = 4,   /* words is 0 or above AVM_PROGRAM_MOST                                                   */
    AVM_BAD_MICROWORD = 5,        /* a microword has a bit above 39 set or a code that no table names; at: the lowest such  */
    AVM_OUTSIDE = 6,              /* MPC is not below words, or the phase number is above 3                                 */
    AVM_BAD_REQUEST = 7,          /* a request byte is above 3, or where instructions are done above 1; at: the first such  */
    AVM_LEFT_PROGRAM = 8,         /* a microcycle would give a next address that is not below words                         */
    AVM_TEXT_TOO_LONG = 9,        /* an image's text has more than AVM_TEXT_MOST bytes                                      */
    AVM_NOT_A_RECORD = 10,        /* a line is not of record form, or blank; at: the line                                   */
    AVM_BAD_SUM = 11,             /* the bytes of a record do not sum to 0 modulo 256; at: the line                         */
    AVM_BAD_TYPE = 12,            /* a record's type is neither 00 nor 01; at: the line                                     */
    AVM_BAD_EXTENT = 13,          /* a record's count, its address or where it ends is wrong; at: the line                  */
    AVM_BAD_END = 14,             /* no end record; at: how many lines there are. Or something after it; at: that line      */
    AVM_BAD_ORDER = 15,           /* a data record starts before the end of the one before it; at: the line                 */
    AVM_NO_ROOM = 16,             /* the text to write does not fit; at: the bytes that it needs                            */
    AVM_WALK_LEAVES = 17,         /* a walk can leave the microprogram; at: the lowest word of a walk from which it can     */
    AVM_WALK_NOT_BACK = 18        /* a walk is longer than AVM_WALK_MOST; at: the lowest word on which one then stands      */
};

/* Two clocks, two types: a count on one can't be taken for a count on the other. */
typedef struct { uint64_t count; } avm_microcycles;      /* a count on the microcycle clock, four phases each                   */
typedef struct { uint64_t count; } avm_instructions;     /* a count on the instruction clock, an instruction or interrupt each  */

/* What a call returns. A field that the call does not name for this number is 0. Words and places are counted from 0, lines from 1. */
typedef struct {
    uint64_t number;               /* AVM_DONE, or why the call was refused                                                 */
    uint64_t at;                   /* with 5, 17 and 18 the word, with 7 the place in the request bytes, with 10 to 15 the
                                      line of the text, with 16 the bytes needed; of avm_write with 0: the bytes written    */
    avm_microcycles microcycles;   /* of avm_run and avm_board_microcycle with 0 and 8: the microcycles that they completed;
                                      of avm_check with 0: the length of the longest walk                                   */
    avm_instructions steps;        /* of avm_run and avm_board_microcycle with 0 and 8: returns to fetch, those of the
                                      microcycles after which MPC is AVM_FETCH;
                                      of avm_steps and avm_board_instruction with 0: the steps that they did                */
} avm_answer;

/* Words of the state block, by index; AVM_STATE is their number.

   AVM_PSW   program status word: the bits AVM_PSW_Z to AVM_PSW_SM. Those above them mean nothing. A call drops them from the lent PSW,
             also where it has no microcycle or step to do; a refused call that completed no microcycle leaves them as lent.
   AVM_PC    program counter, an address in memory words
   AVM_IR    instruction register
   AVM_MAR   memory address register, an address in memory words
   AVM_MBR   memory buffer register
   AVM_MPC   microprogram counter: the address of the next microword, below words
   AVM_IVEC  interrupt vector. No call changes it.

   avm_steps has no use for IR, MAR, MBR and MPC: it takes any word there, MPC too, and leaves all four as lent. */
enum { AVM_PSW, AVM_PC, AVM_IR, AVM_MAR, AVM_MBR, AVM_MPC, AVM_IVEC, AVM_STATE };

/* Bits of the PSW, as masks. */
#define AVM_PSW_Z 0x01u    /* z: zero                 */
#define AVM_PSW_C 0x02u    /* c: carry                */
#define AVM_PSW_N 0x04u    /* n: negative             */
#define AVM_PSW_V 0x08u    /* v: overflow             */
#define AVM_PSW_IE 0x10u   /* ie: interrupts enabled  */
#define AVM_PSW_SM 0x20u   /* sm: supervisor mode     */
#define AVM_PSW_ALL 0x3Fu  /* all six                 */

/* Words of the latch block that phase calls hand on, by index; AVM_LATCHES is their number.

   AVM_ALATCH  word on the ALU's A side
   AVM_BLATCH  word on the ALU's B side
   AVM_IREQ    the request that phase one latched
   AVM_IACK    the acknowledge that phase two latched

   The last two hold one bit each: a word other than 0 counts as set, and unless the call is refused they come back as 0 or 1. */
enum { AVM_ALATCH, AVM_BLATCH, AVM_IREQ, AVM_IACK, AVM_LATCHES };

/* The width bits of a word from bit shift up, as an unsigned; width is below 32. */
#define AVM_BITS(word, shift, width) ((unsigned)((uint64_t)(word) >> (shift)) & ((1u << (width)) - 1u))

/* Where the fields of an instruction word stand (docs/AVM1.md, section 2). Of the six bits of an opcode only the low five count.
   AVM_INSTRUCTION_FIELD(word, OPCODE) takes a field out of a word. */
#define AVM_INSTRUCTION_OPCODE_SHIFT 26
#define AVM_INSTRUCTION_OPCODE_WIDTH 5
#define AVM_INSTRUCTION_DEST_SHIFT 21
#define AVM_INSTRUCTION_DEST_WIDTH 5
#define AVM_INSTRUCTION_SRCA_SHIFT 16
#define AVM_INSTRUCTION_SRCA_WIDTH 5
#define AVM_INSTRUCTION_SRCB_SHIFT 11
#define AVM_INSTRUCTION_SRCB_WIDTH 5
#define AVM_INSTRUCTION_IMM_SHIFT 0
#define AVM_INSTRUCTION_IMM_WIDTH 16
#define AVM_INSTRUCTION_FIELD(word, field) AVM_BITS(word, AVM_INSTRUCTION_##field##_SHIFT, AVM_INSTRUCTION_##field##_WIDTH)

/* A microword is the low AVM_MICROWORD_BITS bits of a uint64_t, the others 0. Its fields from the top, with their bits:

       AMUX 39      SHFT 38..37   ALU 36..33   MAR 32       MBR 31       PMUX 30
       SRCA 29..27  SRCB 26..25   TRGT 24..22  S.SM 21      C.SM 20      S.IE 19
       C.IE 18      LD.C 17       LD.V 16      LD.N 15      LD.Z 14      CSRC 13
       IACK 12      FTCH 11       RD 10        WR 9         COND 8..6    ADDR 5..0

   Each has a shift, which is its lowest bit, and a width; its name has an underscore for a dot here. AVM_FIELD(word, COND) takes a field
   out of a microword. To put a code in, widen it first: (uint64_t)AVM_ALU_NOP << AVM_FIELD_ALU_SHIFT. */
#define AVM_MICROWORD_BITS 40
#define AVM_FIELD_AMUX_SHIFT 39
#define AVM_FIELD_AMUX_WIDTH 1
#define AVM_FIELD_SHFT_SHIFT 37
#define AVM_FIELD_SHFT_WIDTH 2
#define AVM_FIELD_ALU_SHIFT 33
#define AVM_FIELD_ALU_WIDTH 4
#define AVM_FIELD_MAR_SHIFT 32
#define AVM_FIELD_MAR_WIDTH 1
#define AVM_FIELD_MBR_SHIFT 31
#define AVM_FIELD_MBR_WIDTH 1
#define AVM_FIELD_PMUX_SHIFT 30
#define AVM_FIELD_PMUX_WIDTH 1
#define AVM_FIELD_SRCA_SHIFT 27
#define AVM_FIELD_SRCA_WIDTH 3
#define AVM_FIELD_SRCB_SHIFT 25
#define AVM_FIELD_SRCB_WIDTH 2
#define AVM_FIELD_TRGT_SHIFT 22
#define AVM_FIELD_TRGT_WIDTH 3
#define AVM_FIELD_S_SM_SHIFT 21
#define AVM_FIELD_S_SM_WIDTH 1
#define AVM_FIELD_C_SM_SHIFT 20
#define AVM_FIELD_C_SM_WIDTH 1
#define AVM_FIELD_S_IE_SHIFT 19
#define AVM_FIELD_S_IE_WIDTH 1
#define AVM_FIELD_C_IE_SHIFT 18
#define AVM_FIELD_C_IE_WIDTH 1
#define AVM_FIELD_LD_C_SHIFT 17
#define AVM_FIELD_LD_C_WIDTH 1
#define AVM_FIELD_LD_V_SHIFT 16
#define AVM_FIELD_LD_V_WIDTH 1
#define AVM_FIELD_LD_N_SHIFT 15
#define AVM_FIELD_LD_N_WIDTH 1
#define AVM_FIELD_LD_Z_SHIFT 14
#define AVM_FIELD_LD_Z_WIDTH 1
#define AVM_FIELD_CSRC_SHIFT 13
#define AVM_FIELD_CSRC_WIDTH 1
#define AVM_FIELD_IACK_SHIFT 12
#define AVM_FIELD_IACK_WIDTH 1
#define AVM_FIELD_FTCH_SHIFT 11
#define AVM_FIELD_FTCH_WIDTH 1
#define AVM_FIELD_RD_SHIFT 10
#define AVM_FIELD_RD_WIDTH 1
#define AVM_FIELD_WR_SHIFT 9
#define AVM_FIELD_WR_WIDTH 1
#define AVM_FIELD_COND_SHIFT 6
#define AVM_FIELD_COND_WIDTH 3
#define AVM_FIELD_ADDR_SHIFT 0
#define AVM_FIELD_ADDR_WIDTH 6
#define AVM_FIELD(word, field) AVM_BITS(word, AVM_FIELD_##field##_SHIFT, AVM_FIELD_##field##_WIDTH)

/* Highest codes. All codes of the other fields are good. */
#define AVM_FIELD_ALU_MOST 10
#define AVM_FIELD_SRCA_MOST 5
#define AVM_FIELD_SRCB_MOST 2
#define AVM_FIELD_TRGT_MOST 6
#define AVM_FIELD_COND_MOST 4

/* The codes of fields by name, from 0 (docs/AVM1.md, section 8). */
enum { AVM_SHFT_SHL, AVM_SHFT_SHR, AVM_SHFT_ASR, AVM_SHFT_NSH };
enum {
    AVM_ALU_ADD, AVM_ALU_ADDC, AVM_ALU_INC, AVM_ALU_SUB, AVM_ALU_SUBC, AVM_ALU_DEC,
    AVM_ALU_BAND, AVM_ALU_BXOR, AVM_ALU_BOR, AVM_ALU_BNOT, AVM_ALU_NOP
};
enum { AVM_SRCA_REG_FILE, AVM_SRCA_REG_DEST, AVM_SRCA_SSP, AVM_SRCA_PSW, AVM_SRCA_C255, AVM_SRCA_PC };
enum { AVM_SRCB_REG_FILE, AVM_SRCB_IVEC, AVM_SRCB_IR };
enum { AVM_TRGT_REG_FILE, AVM_TRGT_SSP, AVM_TRGT_PSW, AVM_TRGT_IR, AVM_TRGT_PC, AVM_TRGT_PCJ, AVM_TRGT_NOREG };
enum { AVM_COND_STEP, AVM_COND_JMP, AVM_COND_JOP, AVM_COND_JINT, AVM_COND_JSM };

/* The addresses that jop can lead to: the first with opcode 0, the last with opcode 31. */
#define AVM_JOP_FIRST 4
#define AVM_JOP_LAST 35

/* Runs one microcycle for each request byte, in their order.

   program, words    the microprogram, one microword each; only read
   memory, m         memory, in words of 32 bits; an address is taken modulo m
   registers, count  registers 0 to 31
   state             the state block
   requests, bytes   one byte a microcycle: AVM_REQUEST_INTERRUPT, AVM_REQUEST_RESET, 3 for both or 0 for neither; only read. Reset
                     changes nothing in AVM-1.

   Number 0: all bytes were run. memory, registers and state are those after the last microcycle, and the answer has the microcycles done
   (that is bytes) and the returns among them. With no byte only the PSW's higher bits are dropped.
   Numbers 1 to 7: refused, everything as lent.
   Number 8: the run stopped before a microcycle that would have left the microprogram. That one stored nothing. The answer has the
   microcycles and returns before it, and memory, registers and state are those after the last completed microcycle: everything is as lent,
   the PSW's higher bits too, if there was none. */
avm_answer avm_run(const uint64_t *program, size_t words, uint32_t *memory, size_t m, uint32_t *registers, size_t count,
                   uint32_t state[AVM_STATE], const uint8_t *requests, size_t bytes);

/* Does one phase, a quarter of a microcycle.

   program .. state  as for avm_run
   latches           the latch block
   mir               the microinstruction register, a microword. It is tested for 5 after the program, as the word with the number words.
   phase             the phase to do: 0 is phase one and 3 phase four. It comes back as the number of the next phase, 0 after 3.
   request           a byte as in avm_run's list; tested in every phase and read by phase one. at is 0 when it is refused with 7.

   Phase one loads mir from the program at MPC and latches the request. Phase two loads the two ALU latches and the acknowledge. Phase three
   loads MAR from PC if the microword says so. Phase four stores the result, which can change memory, registers and state.

   Number 0: the phase was done, the PSW's higher bits were dropped, and AVM_IREQ and AVM_IACK are 0 or 1.
   Numbers 1 to 7: refused, everything as lent.
   Number 8: comes from phase number 3 alone. Everything is as lent, so a MAR that an earlier call loaded stays.
   The counts are 0 in every case. */
avm_answer avm_phase(const uint64_t *program, size_t words, uint32_t *memory, size_t m, uint32_t *registers, size_t count,
                     uint32_t state[AVM_STATE], uint32_t latches[AVM_LATCHES], uint64_t *mir, uint32_t *phase, uint8_t request);

/* Does one step for each request byte, in their order. A step is the instruction at PC, or the interrupt step. No microprogram takes part:
   docs/AVM1.md says what each instruction does (section 3) and what the interrupt step does (section 13).

   memory, m         memory, in words of 32 bits; an address, PC too, is taken modulo m where memory is read or written
   registers, count  registers 0 to 31
   state             the state block; PSW and PC change, the others stay as lent
   requests, bytes   one byte a step: AVM_REQUEST_INTERRUPT or 0; only read. There is no AVM_REQUEST_RESET here: 2 and 3 are refused.

   A step is the interrupt step exactly if its byte is AVM_REQUEST_INTERRUPT and AVM_PSW_IE is set when it begins. That one stores PC at the
   supervisor stack pointer, register 1, which moves up by one, sets AVM_PSW_SM, clears AVM_PSW_IE and takes the low eight bits of IVEC for
   PC.

   Number 0: all bytes were done. memory, registers, PSW and PC are those after the last step, and the answer has the steps done (that is
   bytes) and no microcycles. With no byte only the PSW's higher bits are dropped.
   Numbers 1, 2, 3 and 7: refused, everything as lent. */
avm_answer avm_steps(uint32_t *memory, size_t m, uint32_t *registers, size_t count, uint32_t state[AVM_STATE], const uint8_t *requests,
                     size_t bytes);

/* A bench board: registers and state words as one record, which a display keeps from call to call. Its fields mean what the registers of
   avm_run and the words of the state block mean, in their order. */
typedef struct {
    uint32_t registers[AVM_REGISTERS];
    uint32_t psw, pc, ir, mar, mbr, mpc, ivec;
} avm_board;

/* Advances a board by one microcycle, where it stands: what avm_run does with one request byte.

   board             the board
   program .. m      as for avm_run
   request           a byte as in avm_run's list. at is 0 when it is refused with 7.

   Number 0: the microcycle was done, and the PSW's higher bits were dropped. microcycles is 1; steps is 1 if MPC is AVM_FETCH now, else 0.
   Numbers 1 and 3 to 8: refused, board and memory as lent, the PSW's higher bits too. The counts are 0. 8 says that the microcycle would
   have left the microprogram. */
avm_answer avm_board_microcycle(avm_board *board, const uint64_t *program, size_t words, uint32_t *memory, size_t m, uint8_t request);

/* Advances a board by one step, that is an instruction or the interrupt step, where it stands: what avm_steps does with one request byte.

   board             the board; registers, PSW and PC change. IR, MAR, MBR and MPC stay as lent, whatever they are, and so does IVEC.
   memory, m         as for avm_steps
   request           AVM_REQUEST_INTERRUPT or 0. at is 0 when it is refused with 7.

   Number 0: the step was done, and the PSW's higher bits were dropped. steps is 1 and microcycles 0.
   Numbers 1, 3 and 7: refused, board and memory as lent, the PSW's higher bits too. The counts are 0.

   The step starts from PC and the registers as they are, also where MPC says that a microprogram is in the middle of an instruction. A
   board that is advanced by microcycles too should have MPC at AVM_FETCH before a step. */
avm_answer avm_board_instruction(avm_board *board, uint32_t *memory, size_t m, uint8_t request);

/* Checks a microprogram without running it: is it back at fetch within a known number of microcycles, whatever it is run on?

   program, words    the microprogram, one microword each; only read

   The possible next addresses of a word follow from its own address, its COND and its ADDR. Which of them a run takes depends on the
   opcode, the latched request, ie and sm. Here each of these may have any value at any word, whatever it was a word earlier:

       AVM_COND_STEP  the next word, that is the word's own address + 1; after 63 comes 0
       AVM_COND_JMP   ADDR
       AVM_COND_JOP   each address from AVM_JOP_FIRST to AVM_JOP_LAST
       AVM_COND_JINT  ADDR and the next word
       AVM_COND_JSM   ADDR and the next word

   A walk starts at AVM_FETCH, goes to a possible next address in each microcycle, and ends as soon as it is back at AVM_FETCH. Its length
   is its number of microcycles: where word 0 leads to 0 alone, the one walk has length 1. A word on no walk matters for 5 alone.

   Number 0: accepted. microcycles is the length of the longest walk, from 1 to AVM_WALK_MOST. That promises something of avm_run: a run of
   this program with MPC at AVM_FETCH is never answered with 8, and it is back at AVM_FETCH after at most that many microcycles, counted
   from the start and from each return. Memory, registers, the rest of the state and the request bytes can be any that avm_run takes. All
   that holds of a board that is advanced by avm_board_microcycle too.
   Numbers 4 and 5: refused as by avm_run.
   Number 17: a walk can leave the microprogram. at is the lowest word that a walk reaches and that has a possible next address which is not
   below words.
   Number 18: no walk can leave, but one is not back after AVM_WALK_MOST microcycles. There are 63 words besides fetch, so it was on one of
   them twice: it goes in a circle. at is the lowest word on which such a walk stands after exactly AVM_WALK_MOST microcycles, which need
   not be the lowest word of the circle.

   A walk may be one that no run takes: sm may be set by one word and taken as clear by a jsm right after it. So all runs may be back sooner
   than the longest walk, and a program may be refused for a walk that no run would take.
   The program is as lent after every number. steps is 0, and where the program is refused microcycles is 0 too. */
avm_answer avm_check(const uint64_t *program, size_t words);

/* Reads an image, that is Intel HEX text, into memory.

   memory, m         memory, in words of 32 bits: word w is the image's bytes 4w to 4w + 3, the most significant first
   text, bytes       the text, a character a byte and no closing zero; only read

   The text is lines, each of them a record: a colon, and then bytes, each as two hex digits in either case.

       :CCAAAATT..SS   CC count, AAAA address, TT type, .. as many bytes of data as CC says, SS checksum

   A line has exactly CC + 5 such bytes, two digits each, and nothing else, no blank either. It ends with LF or CR LF. The last line may
   end where the text does; a CR without LF ends no line. The sum of a record's bytes, SS too, is 0 modulo 256.

   Type 00   data, for the image's bytes from AAAA on. AAAA and CC are multiples of 4, and AAAA + CC, the record's end, is at most 4 * m.
             A record starts at or after the end of the one before it. CC may be 0: such a record stores nothing, but is tested like the
             others, and the next one may not start before its address.
   Type 01   end. CC and AAAA are 0. It comes once, as the last line.

   First m is tested (1), then bytes (9). Then come the lines in their order, each tested for 10, 11, 12, 13 and 15 in that order;
   the end record is not tested for 15, and a line after it is 14 without any test.

   Number 0: all of the text was taken. The words that the records name are stored; the others keep their value.
   Numbers 1 and 9 to 15: refused. Memory is as lent: the lines before the refused one have stored nothing. at is 0 for 1 and 9. For 10
   to 13 and 15 it is the line that was refused. For 14 it is the number of lines where no end record came, 0 for an empty text; where
   something follows the end record it is the line that starts there, a blank one and one without a line end too.
   The counts are 0 in every case. */
avm_answer avm_read(uint32_t *memory, size_t m, const uint8_t *text, size_t bytes);

/* Writes an image: all of memory as Intel HEX text.

   memory, m         memory, in words of 32 bits as for avm_read; only read
   room, bytes       where the text goes; AVM_WRITTEN(m) bytes are enough

   The text has 4 words a line in ascending order, then the end record :00000001FF, in upper case, each line ended by LF. There is no
   closing zero. avm_read takes it: read into a memory of m words, whatever that holds, it gives the same memory.

   Number 0: at is the number of bytes written, that is AVM_WRITTEN(m). What room has beyond them is as lent.
   Number 1: refused, room as lent.
   Number 16: refused, since bytes is below AVM_WRITTEN(m). Room is as lent, and at is the number of bytes that the text needs: with no
   room at all, NULL and 0, the call only tells this.
   The counts are 0 in every case. */
avm_answer avm_write(const uint32_t *memory, size_t m, uint8_t *room, size_t bytes);

/* The published microprogram: the microword at an address, which is taken modulo AVM_PROGRAM_MOST. It is lent nothing and refuses nothing.

   It is a table of AVM_PROGRAM_MOST words, all of them good. To run it, make an array of it and lend that to avm_run, avm_phase or
   avm_board_microcycle:

       uint64_t program[AVM_PROGRAM_MOST];
       size_t k;

       for (k = 0; k < AVM_PROGRAM_MOST; k++)
           program[k] = avm_published(k);

   A run of it with MPC at AVM_FETCH is never answered with 8, and its returns to fetch show exactly the steps of avm_steps. After the
   n-th return memory, registers, PSW, PC and IVEC are those that avm_steps leaves after n steps from the same start. The n-th step's byte
   is the interrupt bit of the request byte of the n-th microcycle that stood at fetch; all other request bytes change nothing.
   A step takes 4 microcycles, but CALL and INT 7, RTI, RTN, LD, LDI, ST and STI 6, and the interrupt step 5. avm_check accepts it with
   7. */
uint64_t avm_published(uint64_t address);

#ifdef __cplusplus
}
#endif

#endif

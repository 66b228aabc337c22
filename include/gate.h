/* The gate loader for C: check an image, work out its turn, start it, step it, step back, run it, save where it stands, resume from
 * there, read its layout, and decode an instruction.
 *
 * Every function is total: whatever the bytes, numbers and lengths, it returns, and what it leaves in each cell is said below.
 * What C must see to, as for any pointer: each pointer is not null (where a length is 0 any address that is not null will do),
 * aligned for its type, and leads to as many cells as its length, its array type or its struct says; and no cell that a function
 * writes lies in another of its arguments.
 *
 * Addresses are 16 bits, PC has 24. The cell of PC has 32 bits and is read whole: a value above FFFFFF is in no code, so a step that
 * is not refused traps 22 there (21 where SP is out of its range too) and leaves the cell as it was. No step that is made leaves PC
 * above 01007F.
 *
 * An image is SLU of version 0001 or 0002. The two have the same layout, and 0002 leaves CALLR out of the set: its operand is a
 * distance, so it breaks when tools move routines. All else is the same in both.
 *
 * Cycles are the figures of the cy column on the manual's instruction pages; wait states and pipeline stalls are not counted.
 * Where a page prints two, as 1/2, the first is of a jump that is not taken and the second of one that is. A jump is taken where
 * its condition holds, even if it leads to the next instruction; JRF never is.
 *
 * Every function is re-entrant: the library keeps nothing between calls and writes no cell but those of its arguments and the
 * caller's stack. Calls may go on at the same time, in threads or in an interrupt, if no cell that one of them writes is an
 * argument of another; an image and limits, which are only read, may be shared.
 *
 * gate_check, gate_turn, gate_start and gate_resume take less than 82 KiB of the caller's stack, whatever the image (83,312 bytes at
 * most were measured, of gate_turn): a check's arrays, of a few numbers about each code byte, have 81,920 bytes. No other function
 * takes 1 KiB (992 bytes measured). A call in which the dynamic linker binds memcpy or memset, as the first one may be, takes what
 * that takes besides, some 3 KiB: as the first call of a program gate_turn took 86,200 bytes and gate_layout 3,448.
 *
 * The library is for x86-64 with the System V calling convention. A slice is passed as two arguments, the address of its first cell
 * and its length, a number of cells and not of bytes; an array of fixed size, or a struct, is passed as its address alone. */
#ifndef GATE_H
#define GATE_H

#include <stddef.h>
#include <stdint.h>

#ifdef __cplusplus
extern "C" {
#endif

/* The version of the library that this header is of. gate_library_version answers that of the archive. */
#define GATE_LIBRARY_MAJOR 0u
#define GATE_LIBRARY_MINOR 5u
#define GATE_LIBRARY_PATCH 0u
#define GATE_LIBRARY_VERSION "0.5.0"

/* Answers of every function but gate_library_version: 0, a refusal, a trap, how a step or a run ended, or why no turn is given. */
enum gate_number {
    GATE_OK = 0,                    /* accepted, turn given, started, made, gone back, saved, decoded */
    GATE_LIMITS = 1,                /* limits break a rule of struct gate_limits */
    GATE_NOT_SLU = 2,               /* under 8 bytes, or not SLU */
    GATE_UNKNOWN_VERSION = 3,       /* version neither 0001 nor 0002 */
    GATE_LAYOUT = 4,                /* another rule of the layout is broken */
    GATE_MARKS = 5,                 /* fewer marks than code bytes */
    GATE_UNREACHED = 6,             /* a start is not reached */
    GATE_DEPTHS_DISAGREE = 7,       /* depths disagree */
    GATE_OUTSIDE = 8,               /* outside the set; in an image of version 0002 CALLR too */
    GATE_TRUNCATED = 9,             /* the bytes end too soon */
    GATE_INTO_INSTRUCTION = 10,     /* a jump into an instruction */
    GATE_DEPTH_RANGE = 11,          /* depth leaves 0 to 255, or RET above 0 */
    GATE_STORE = 12,                /* a direct store not wholly in a grant, or an SP store outside 1 to the depth */
    GATE_JUMP = 13,                 /* a jump leaves its routine */
    GATE_CALL = 14,                 /* a call that is not to an earlier routine */
    GATE_FALLS_OFF = 15,            /* falls off its routine */
    GATE_STACK = 16,                /* the stack area is below the need */
    GATE_MEMORY = 17,               /* the memory is not 32,768 bytes */
    GATE_TRAP_SP = 21,              /* SP is not from stack low - 1 to stack high */
    GATE_TRAP_PC = 22,              /* PC is not in the code, or the bytes run out */
    GATE_TRAP_OUTSIDE = 23,         /* outside the set; in version 0002 CALLR too */
    GATE_TRAP_STACK = 24,           /* SP would leave its range */
    GATE_TRAP_STORE = 25,           /* a direct store not wholly in a grant, or an SP store outside SP + 1 to stack high */
    GATE_RECORD = 26,               /* a record of more than two bytes, or with one at an address above 7FFF */
    GATE_NOT_SLS = 34,              /* a saved state whose mark or version is wrong, or whose length is not its version's */
    GATE_NOT_GOOD = 35,             /* a saved state that is not good; in saving, a PC above FFFF */
    GATE_FINISHED = 64,             /* a step that began at PC 0; a run that reached it, or was resumed there */
    GATE_SPENT = 65,                /* a run that used up its budget, or resumed came to the total 18,446,744,073,709,551,615; PC not 0 */
    GATE_NO_TURN = 66,              /* accepted; some jump goes to its own or a lower address, so there is no turn */
    GATE_OVER = 67                  /* accepted; the turn is above 4,294,967,295 */
};

/* The text of a number, without the offset that a check reports beside it. 18 is of encoding, which no function here does. */
static inline const char *gate_number_text(uint8_t number)
{
    switch (number) {
    case GATE_OK: return "done";
    case GATE_LIMITS: return "limits break a rule";
    case GATE_NOT_SLU: return "under 8 bytes, or not SLU";
    case GATE_UNKNOWN_VERSION: return "version neither 0001 nor 0002";
    case GATE_LAYOUT: return "another layout rule is broken";
    case GATE_MARKS: return "marks too few";
    case GATE_UNREACHED: return "start not reached";
    case GATE_DEPTHS_DISAGREE: return "depths disagree";
    case GATE_OUTSIDE: return "outside the set of the version";
    case GATE_TRUNCATED: return "the bytes end too soon";
    case GATE_INTO_INSTRUCTION: return "jump into an instruction";
    case GATE_DEPTH_RANGE: return "depth leaves 0 to 255, or RET above 0";
    case GATE_STORE: return "store not allowed";
    case GATE_JUMP: return "jump leaves its routine";
    case GATE_CALL: return "call not to an earlier routine";
    case GATE_FALLS_OFF: return "falls off its routine";
    case GATE_STACK: return "stack area below the reported need";
    case GATE_MEMORY: return "memory not 32,768 bytes";
    case 18: return "no such instruction";
    case GATE_TRAP_SP: return "SP not from stack low - 1 to stack high";
    case GATE_TRAP_PC: return "PC not in the code, or the bytes run out";
    case GATE_TRAP_OUTSIDE: return "outside the set of the version";
    case GATE_TRAP_STACK: return "SP would leave its range";
    case GATE_TRAP_STORE: return "direct store not wholly in one of the grants, or SP store outside SP + 1 to stack high";
    case GATE_RECORD: return "a record of more than two bytes, or with one at an address above 7FFF";
    case GATE_NOT_SLS: return "saved state neither 19 bytes of SLS version 0001 nor 23 of version 0002";
    case GATE_NOT_GOOD: return "saved state not good, or PC too large to save";
    case GATE_FINISHED: return "finished";
    case GATE_SPENT: return "the budget is used up";
    case GATE_NO_TURN: return "no turn: a jump goes to its own or a lower address";
    case GATE_OVER: return "the turn is above 4,294,967,295";
    default: return "unknown number";
    }
}

#define GATE_MEMORY_BYTES 32768u    /* the memory that start, step, step back, run and resume are lent: addresses 0000 to 7FFF */
#define GATE_MARKS_ENOUGH 4096u     /* marks that are enough for every image */
#define GATE_TEXT_BYTES 24u         /* the cells of a text, its final 0 included */
#define GATE_ROUTINES 32u           /* the most routines of an image */
#define GATE_SAVED_BYTES 23u        /* the bytes of a saved state that is written; an old one, of version 0001, has 19 */

/* Addresses, ends included. */
struct gate_area { uint16_t low, high; };

/* The areas that a routine may write: the grant, its stack, and a second grant, which there need not be. A routine that was started
 * under its limits changes no other byte of memory.
 *
 * Grant and stack: low is not above high, both are at most 7FFF, stack low is at least 1, and the two don't meet. Second grant:
 * low above high means none, whatever the values; any other is at most 7FFF too and meets neither the grant nor the stack. A direct
 * store, both bytes of a word included, lies wholly in one of the grants: a word over the seam of two that touch is in neither.
 *
 * Where there is no second grant, say GATE_NO_AREA. One that an initialiser leaves out is 0000-0000, which is not none but one
 * byte: the routine may store at 0000, or the limits are refused because it meets a grant that begins there. */
struct gate_limits { struct gate_area grant, stack, second; };

/* The initialiser of a second grant that is none. */
#define GATE_NO_AREA { 0xFFFF, 0x0000 }

/* The library reads limits as six 16-bit cells, in this order and with nothing between them. */
typedef char gate_limits_are_six_cells[sizeof(struct gate_limits) == 12 ? 1 : -1];

/* The cells of a register array. */
enum gate_register { GATE_A, GATE_X, GATE_Y, GATE_CC, GATE_SP, GATE_PC, GATE_REGISTERS };

/* A byte of memory that a step overwrote: its address, and what it held before. */
struct gate_byte { uint32_t address, value; };

/* The record of a step: the registers before it, and the bytes of memory that it overwrote, whether their values changed or not:
 * how many, and each of them, the lower address first. A step overwrites two at most, and leaves zeros in the bytes past count. */
struct gate_record {
    uint32_t registers[GATE_REGISTERS];
    uint32_t count;
    struct gate_byte bytes[2];
};

/* The library reads and writes a record as eleven 32-bit cells, in this order and with nothing between them. */
typedef char gate_record_is_eleven_cells[sizeof(struct gate_record) == 44 ? 1 : -1];

/* The layout of an image: its version; its base, the address of the first code byte; how many routines it has; the index in the image
 * of the first code byte; the number of code bytes; and for each routine, in the image's order, the offset from the first code byte
 * at which it begins, 0 past the routines. A routine ends where the next one begins, and the last one, which is main, with the code. */
struct gate_layout { uint16_t version, base, routines, code, size, begins[GATE_ROUTINES]; };

/* The library writes a layout as 37 cells of 16 bits, in this order and with nothing between them. */
typedef char gate_layout_is_37_cells[sizeof(struct gate_layout) == 74 ? 1 : -1];

/* The cells of a report. */
enum gate_report { GATE_OFFSET, GATE_NEED, GATE_COUNT, GATE_REPORT };

/* The cells of the cycles of an instruction. */
enum gate_cycles { GATE_UNTAKEN, GATE_TAKEN, GATE_CYCLES };

/* The version of the library: major * 65536 + minor * 256 + patch. */
uint32_t gate_library_version(void);

/* Reads the layout of an image. The answer is 0, or the refusal 2, 3 or 4, tested in this order as a check does, which tests the
 * limits before; that the layout is right does not say that a check accepts the image. Refused, every cell is 0. */
uint8_t gate_layout(const uint8_t *image, size_t image_length, struct gate_layout *layout);

/* Checks an image under limits. The answer is 0 (accepted) or a refusal from 1 to 16; 1 is of the limits, whatever the image.
 * report: the refusal's offset from the first code byte, 0 for all but 6 to 15 (7 points at its routine's first byte, the others
 * at the instruction to look at); the need; the count of starts. Offset is 0 where accepted, need and count are 0 where refused.
 * marks: accepted, each start's mark is its depth + 1 and every other code byte's is 0; after 6 to 16 all code marks are 0; after
 * 1 to 5 none has changed. Cells past the code never change. */
uint8_t gate_check(const uint8_t *image, size_t image_length,
                   const struct gate_limits *limits,
                   uint16_t *marks, size_t marks_length,
                   uint16_t report[GATE_REPORT]);

/* Works out the turn of an image, after the whole check. The answer is a refusal from 1 to 16, exactly as gate_check's; else the image
 * is accepted, and the answer is 0, GATE_NO_TURN or GATE_OVER.
 * offset: the refusal's, as gate_check reports it; 0 for any other answer. turn: main's turn, 1 to 4,294,967,295, where the answer is
 * 0; else 0. marks are as gate_check leaves them.
 *   GATE_NO_TURN: some jump goes to its own address, that of its first byte, or to a lower one. Every jump of every routine counts, also
 *   of a routine that nobody calls, BTJT and BTJF too, and JRF, though it never jumps; CALL and CALLR are no jumps.
 *   0 or GATE_OVER: there is no such jump. A routine's turn is the sum over its instructions of 1, plus the callee's turn at calls.
 *   GATE_OVER: main's is above 4,294,967,295.
 * With no such jump the routine finishes within main's turn of steps, started with any A, X, Y, CC and memory: a gate_run with a budget
 * of at least the turn answers GATE_FINISHED after at most so many steps. Where it is over, so do runs one after another whose budgets
 * add up to it. */
uint8_t gate_turn(const uint8_t *image, size_t image_length,
                  const struct gate_limits *limits,
                  uint16_t *marks, size_t marks_length,
                  uint16_t offset[1], uint32_t turn[1]);

/* Starts a routine: 17, then the whole check. Accepted, 00 is written to the top two stack bytes, and registers are A, X, Y and
 * CC as they were given (their low 8 or 16 bits), SP two below stack high, and PC at main. Refused, no memory is written and all
 * registers are 0. report and marks are as gate_check leaves them; after 17 the report is zeros and no mark has changed. */
uint8_t gate_start(const uint8_t *image, size_t image_length,
                   const struct gate_limits *limits,
                   uint16_t *marks, size_t marks_length,
                   uint8_t *memory, size_t memory_length,
                   uint32_t registers[GATE_REGISTERS],
                   uint16_t report[GATE_REPORT]);

/* Makes one step. The answer is 0 (made), GATE_FINISHED, a trap from 21 to 25, or a refusal (17, 1 to 4). Each register is read
 * by its low 8 bits (A, CC), 16 bits (X, Y, SP) or 32 bits (PC), whatever the answer.
 *   0: registers and memory are those after the instruction, and PC may now be 0. cycles: those of the instruction. record: the
 *   registers as they were read, and every byte that the instruction stored, as it was before.
 *   GATE_FINISHED, a trap or a refusal: registers come back as they were read, and memory is as it was. cycles: 0. record: the
 *   registers, and no bytes. */
uint8_t gate_step(const uint8_t *image, size_t image_length,
                  const struct gate_limits *limits,
                  uint8_t *memory, size_t memory_length,
                  uint32_t registers[GATE_REGISTERS], uint64_t cycles[1],
                  struct gate_record *record);

/* Steps back by a record: writes the bytes that it counts, in its order, so that of two at one address the later one stays. The
 * answer is 0, 17, or 26 where the record counts more than two bytes or one that it counts has an address above 7FFF; refused, no
 * memory is written. registers: the record's, whatever the answer.
 * Registers in a record are read as in gate_step, a value by its low 8 bits, count and addresses whole; a byte that is not counted
 * is not looked at.
 * Given the record of a step and the memory as that step left it, registers and memory are again what they were before the step,
 * whatever the step answered; and it is refused only where the step was refused with 17. The records of several steps are given
 * back in the reverse order. gate_run makes no records: those from before a run are of no use after it. */
uint8_t gate_step_back(const struct gate_record *record,
                       uint8_t *memory, size_t memory_length,
                       uint32_t registers[GATE_REGISTERS]);

/* Makes steps until the routine finishes, traps or budget steps are made. The answer is GATE_FINISHED, GATE_SPENT, a trap, or a
 * refusal (17, 1 to 4). steps: the number of steps made, the trapping one not counted; 0 where refused. cycles: the sum over the
 * steps made, so 0 where none was made or the call is refused. It never wraps, since no instruction takes more than 4 cycles and a
 * budget has 32 bits. Registers are read as in gate_step.
 *   GATE_FINISHED: registers and memory are those after the last step made, and PC is 0.
 *   GATE_SPENT: the same, with PC not 0 and steps equal to budget. A call with these registers and this memory goes on.
 *   a trap: the same, from before the trapping step, which changed nothing. PC is where it stands.
 *   a refusal: registers come back as they were read, and memory is as it was.
 * Where no step was made, "after the last step made" is as they were read. Budget 0 makes none: finished where PC is 0, else
 * spent.
 * Where it stopped can be saved: gate_save takes these registers and the steps made since the start, of this run and those before it. */
uint8_t gate_run(const uint8_t *image, size_t image_length,
                 const struct gate_limits *limits,
                 uint8_t *memory, size_t memory_length,
                 uint32_t registers[GATE_REGISTERS],
                 uint32_t budget, uint32_t steps[1], uint64_t cycles[1]);

/* Saves registers and steps as a saved state, from which gate_resume goes on: SLS, version 0002. The answer is 0; or 35 where PC is above
 * FFFF, to which no accepted routine comes. Registers are read as in gate_step.
 * saved: 53 4C 53 for SLS, the version 0002 (2 bytes), PC (2), SP (2), A (1), X (2), Y (2), CC (1) and steps (8), high bytes first.
 * Refused, all bytes are 00.
 * steps: those made since the start, so the sum over the runs and single steps since then, or what gate_resume reported and those made
 * since. The memory is not saved: it is the caller's to keep, all of it and as it is now, beside the saved state. */
uint8_t gate_save(const uint32_t registers[GATE_REGISTERS], uint64_t steps, uint8_t saved[GATE_SAVED_BYTES]);

/* Resumes from a saved state: makes steps from its registers, on the memory as it is lent, until the routine finishes, budget steps are
 * made or their total is 18,446,744,073,709,551,615. The answer is GATE_FINISHED, GATE_SPENT, or a refusal: 17; then 1 to 16, the whole
 * check; then 34, where the saved state has other letters than SLS, another version than 0001 and 0002, or not its version's length;
 * then 35, where it is not good. It is never a trap, for an accepted routine does not trap from a good state, whatever else the memory
 * holds.
 *   Version 0002 is what gate_save writes, GATE_SAVED_BYTES long. Version 0001, which the library wrote before 0.5.0, has 4 bytes for the
 *   steps where 0002 has 8, and so 19 in all; the rest is the same. With the same registers and steps both come to the same, so a state
 *   that was kept is given as it is, with its own length.
 *   Good: PC is 0, for finished, and SP equals stack high. Or PC is at a start, and the stack holds from SP + 1 up: as many bytes as the
 *   depth there, of any value; the address after a call to that start's routine; as many bytes as the depth at that call; the address
 *   after a call to the routine that the call stands in; and so on up to main's return bytes, which are 00 00 and the top two of the
 *   stack area. Nobody calls main. A, X, Y, CC, steps and all other bytes of memory may be any. Every state is good that steps and runs
 *   from a start come to. From a good one all holds that is guaranteed after a start, and the memory that is lent now counts as the
 *   memory before the start.
 * With the image and the limits of the start, and the memory as it was when the state was saved, a run that was saved and resumed comes
 * to the same registers, memory and total of steps as one run with the sum of the budgets, where that is a budget.
 * What registers, steps, cycles and offset held is not read. Whatever the answer they are written:
 *   GATE_FINISHED: registers and memory are those after the last step made, and PC is 0. steps: the total, those of the saved state and
 *   those made now. cycles: the sum over those made now alone. Where PC was 0 none is made.
 *   GATE_SPENT: the same, with PC not 0: budget steps are made, or the total is 18,446,744,073,709,551,615. Budget 0 makes none: with it
 *   the call tests a saved state and takes it apart. To go on, call gate_run with these registers, or save them and resume.
 *   a refusal: registers, steps and cycles are 0, and no memory is written. offset is that of gate_check; for any other answer 0.
 * marks: after 17 none has changed; after 1 to 16 they are as gate_check leaves them; else as it leaves them where it accepts, after 34
 * and 35 too. No memory is written but by the steps: main's return bytes are tested, and not written as by gate_start. */
uint8_t gate_resume(const uint8_t *image, size_t image_length,
                    const struct gate_limits *limits,
                    uint16_t *marks, size_t marks_length,
                    uint8_t *memory, size_t memory_length,
                    const uint8_t *saved, size_t saved_length, uint32_t budget,
                    uint32_t registers[GATE_REGISTERS],
                    uint64_t steps[1], uint64_t cycles[1], uint16_t offset[1]);

/* Decodes the instruction at the front of bytes. The answer is 0, 8 (outside the set) or 9 (the bytes end too soon). Loose bytes
 * have no version: the set is the whole one, CALLR included.
 * length: the instruction's bytes, 0 where there is none. text: the instruction as it stands at address, in the manual's
 * assembler notation, and 0 in every cell after it; all 0 where there is none. cycles: not taken and taken, as the page prints
 * them, for JRF too; a single figure stands in both cells; both are 0 where there is no instruction. */
uint8_t gate_decode(const uint8_t *bytes, size_t bytes_length, uint16_t address,
                    uint8_t text[GATE_TEXT_BYTES], size_t length[1], uint8_t cycles[GATE_CYCLES]);

#ifdef __cplusplus
}
#endif

#endif

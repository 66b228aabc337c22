/* Replays the conformance corpus: reads its cases from standard input and prints each line anew, with the library's answer.
 *
 *     gcc -Iinclude conformance/replay.c target/staticlib/libgate_c.a -o replay
 *     ./replay < conformance/step.cases | cmp - conformance/step.cases
 *
 * conformance/replay.sh does this for every file; conformance/README.md says what a line is. */
#include <inttypes.h>
#include <stdio.h>
#include <stdlib.h>
#include <string.h>

#include "gate.h"

enum { LINE = 65536, ADDRESSES = 65536, MARKS = 255 };

/* The bytes of a case, of which those before `next` are read. */
static uint8_t fields[LINE];
static size_t fields_length, next;

/* What the calls of a case are given. Of memory, the first memory_length bytes are lent; `before` is what they held at first. */
static struct gate_limits limits;
static const uint8_t *image;
static uint16_t marks[MARKS];
static uint8_t memory[ADDRESSES], before[ADDRESSES];
static size_t image_length, marks_length, memory_length;
static uint32_t registers[GATE_REGISTERS];

/* A number, high byte first. */
static uint32_t take(size_t bytes)
{
    uint32_t number = 0;
    for (; bytes > 0; bytes--)
        number = number << 8 | (next < fields_length ? fields[next++] : 0u);
    return number;
}

static struct gate_area take_area(void)
{
    const uint16_t low = (uint16_t)take(2);
    const uint16_t high = (uint16_t)take(2);
    return (struct gate_area){ low, high };
}

static void take_limits(void)
{
    limits.grant = take_area();
    limits.stack = take_area();
    limits.second = take_area();
}

/* The first `count` registers; the others are 0. */
static void take_registers(size_t count)
{
    static const size_t bytes[GATE_REGISTERS] = { 1, 2, 2, 1, 2, 3 };
    for (size_t number = 0; number < GATE_REGISTERS; number++)
        registers[number] = number < count ? take(bytes[number]) : 0;
}

static void take_marks(void)
{
    marks_length = take(1);
    for (size_t number = 0; number < marks_length; number++)
        marks[number] = 9;
}

/* Where so many bytes begin, which are then read. */
static const uint8_t *take_bytes(size_t length)
{
    const uint8_t *bytes = fields + next;
    next += length;
    return bytes;
}

static void take_image(size_t length)
{
    image = take_bytes(length);
    image_length = length;
}

/* The cells go on to the end of the fields; they are read again when they are printed. */
static void put_cells(void)
{
    memset(memory, 0, sizeof memory);
    for (size_t at = next; at + 3 <= fields_length; at += 3)
        memory[fields[at] << 8 | fields[at + 1]] = fields[at + 2];
    memcpy(before, memory, sizeof memory);
}

static void print_cell(uint32_t address, uint32_t value)
{
    printf(", %04" PRIX32 " %02" PRIX32, address, value);
}

static void print_registers(void)
{
    printf("A %02" PRIX32 " X %04" PRIX32 " Y %04" PRIX32 " CC %02" PRIX32 " SP %04" PRIX32 " PC %06" PRIX32,
           registers[GATE_A], registers[GATE_X], registers[GATE_Y], registers[GATE_CC], registers[GATE_SP], registers[GATE_PC]);
}

/* Registers, and what the cells of the case hold now. */
static void print_after(void)
{
    print_registers();
    for (size_t at = next; at + 3 <= fields_length; at += 3) {
        const uint32_t address = (uint32_t)(fields[at] << 8 | fields[at + 1]);
        print_cell(address, memory[address]);
    }
}

static void print_refused(uint8_t number, uint16_t offset)
{
    printf("refused %u %u", (unsigned)number, (unsigned)offset);
}

static void print_marks(void)
{
    printf(", marks");
    for (size_t at = 0; at < marks_length; at++)
        printf(" %u", (unsigned)marks[at]);
}

static void print_verdict(uint8_t number, const uint16_t report[GATE_REPORT])
{
    if (number == GATE_OK)
        printf("accepted %u %u", (unsigned)report[GATE_NEED], (unsigned)report[GATE_COUNT]);
    else
        print_refused(number, report[GATE_OFFSET]);
    print_marks();
}

/* The answer of a step or a run. */
static void print_answer(uint8_t number)
{
    if (number == GATE_OK)
        printf("made");
    else if (number == GATE_FINISHED)
        printf("finished");
    else if (number == GATE_SPENT)
        printf("spent");
    else if (number >= GATE_TRAP_SP && number <= GATE_TRAP_STORE)
        printf("trap %u", (unsigned)number);
    else
        printf("refused %u", (unsigned)number);
}

static void check(void)
{
    uint16_t report[GATE_REPORT];
    take_limits();
    take_marks();
    take_image(fields_length - next);
    const uint8_t number = gate_check(image, image_length, &limits, marks, marks_length, report);
    print_verdict(number, report);
}

/* Prints how a run with this budget, after a start with registers of 0 on a memory of zeros, ends. */
static void print_run_within(uint32_t budget)
{
    uint16_t report[GATE_REPORT];
    uint32_t steps[1];
    uint64_t cycles[1];
    memory_length = GATE_MEMORY_BYTES;
    memset(memory, 0, memory_length);
    memset(registers, 0, sizeof registers);
    gate_start(image, image_length, &limits, marks, marks_length, memory, memory_length, registers, report);
    print_answer(gate_run(image, image_length, &limits, memory, memory_length, registers, budget, steps, cycles));
    printf(" after %" PRIu32, *steps);
}

static void work_out_turn(void)
{
    uint16_t offset[1];
    uint32_t turn[1];
    take_limits();
    take_marks();
    take_image(fields_length - next);
    const uint8_t number = gate_turn(image, image_length, &limits, marks, marks_length, offset, turn);
    if (number == GATE_OK)
        printf("within %" PRIu32, *turn);
    else if (number == GATE_NO_TURN)
        printf("none");
    else if (number == GATE_OVER)
        printf("over");
    else
        print_refused(number, *offset);
    print_marks();
    if (number == GATE_OK) {
        printf("; ");
        print_run_within(*turn);
    }
}

static int within(size_t address, struct gate_area area)
{
    return area.low <= address && address <= area.high;
}

/* Whether a routine with this need may write there. */
static int writable(size_t address, size_t need)
{
    const size_t high = limits.stack.high;
    return within(address, limits.grant) || within(address, limits.second) || (address <= high && address + need > high);
}

/* Prints the Adler-32 sums of RFC 1950: of memory, and of memory with 00 wherever the routine may write. */
static void print_digests(size_t need)
{
    uint32_t a[2] = { 1, 1 }, b[2] = { 0, 0 };
    for (size_t address = 0; address < memory_length; address++) {
        const uint32_t bytes[2] = { memory[address], writable(address, need) ? 0u : memory[address] };
        for (size_t sum = 0; sum < 2; sum++) {
            a[sum] = (a[sum] + bytes[sum]) % 65521u;
            b[sum] = (b[sum] + a[sum]) % 65521u;
        }
    }
    printf(", memory %08" PRIX32 ", outside %08" PRIX32, b[0] << 16 | a[0], b[1] << 16 | a[1]);
}

static void print_state(size_t need)
{
    const uint16_t top = (uint16_t)(limits.stack.high - 2);
    print_registers();
    printf(", %04X", (unsigned)top);
    for (size_t address = top; address < top + (size_t)3; address++)
        printf(" %02X", (unsigned)(address < memory_length ? memory[address] : 0));
    print_digests(need);
}

/* One run to the end. */
static void run_whole(uint32_t steps[1], uint64_t cycles[1])
{
    gate_run(image, image_length, &limits, memory, memory_length, registers, UINT32_MAX, steps, cycles);
}

/* Runs with the budgets 1, 2, 3 and 7 in turn, and a step after each, until one is not made. */
static void run_pieces(uint32_t steps[1], uint64_t cycles[1])
{
    static const uint32_t budgets[] = { 1, 2, 3, 7 };
    struct gate_record record;
    uint32_t made[1];
    uint64_t spent[1];
    uint8_t number = GATE_OK;
    *steps = 0;
    *cycles = 0;
    for (size_t turn = 0; number == GATE_OK; turn++) {
        gate_run(image, image_length, &limits, memory, memory_length, registers, budgets[turn % 4], made, spent);
        *steps += *made;
        *cycles += *spent;
        number = gate_step(image, image_length, &limits, memory, memory_length, registers, spent, &record);
        *steps += number == GATE_OK;
        *cycles += *spent;
    }
}

typedef void running(uint32_t steps[1], uint64_t cycles[1]);

/* Goes on in one of the two ways from registers and memory as the start left them, and puts these back. */
static void print_run(const char *name, running *way, size_t need)
{
    uint32_t started[GATE_REGISTERS], steps[1];
    uint64_t cycles[1];
    memcpy(started, registers, sizeof registers);
    memcpy(before, memory, sizeof memory);
    way(steps, cycles);
    printf("; %s, steps %" PRIu32 ", cycles %" PRIu64 ": ", name, *steps, *cycles);
    print_state(need);
    memcpy(registers, started, sizeof registers);
    memcpy(memory, before, sizeof memory);
}

static void start(void)
{
    uint16_t report[GATE_REPORT];
    take_limits();
    take_marks();
    memory_length = take(2);
    take_registers(GATE_SP);
    take_image(fields_length - next);
    for (size_t address = 0; address < memory_length; address++)
        memory[address] = (uint8_t)(address % 251);
    const uint8_t number = gate_start(image, image_length, &limits, marks, marks_length, memory, memory_length, registers, report);
    print_verdict(number, report);
    printf("; start: ");
    print_state(report[GATE_NEED]);
    if (number == GATE_OK) {
        print_run("whole", run_whole, report[GATE_NEED]);
        print_run("pieces", run_pieces, report[GATE_NEED]);
    }
}

static void run(void)
{
    uint32_t steps[1];
    uint64_t cycles[1];
    take_limits();
    memory_length = take(2);
    take_registers(GATE_REGISTERS);
    const uint32_t budget = take(4);
    take_image(take(1));
    put_cells();
    print_answer(gate_run(image, image_length, &limits, memory, memory_length, registers, budget, steps, cycles));
    printf(" after %" PRIu32 ", cycles %" PRIu64 ": ", *steps, *cycles);
    print_after();
}

/* A step, its cycles and its record: the answer. */
static uint8_t make_step(uint64_t cycles[1], struct gate_record *record)
{
    take_limits();
    memory_length = take(2);
    take_registers(GATE_REGISTERS);
    take_image(take(1));
    put_cells();
    return gate_step(image, image_length, &limits, memory, memory_length, registers, cycles, record);
}

static void step(void)
{
    struct gate_record record;
    uint64_t cycles[1];
    print_answer(make_step(cycles, &record));
    printf(", cycles %" PRIu64 ": ", *cycles);
    print_after();
}

static void print_back(const struct gate_record *record)
{
    printf("back %u: ", (unsigned)gate_step_back(record, memory, memory_length, registers));
    print_after();
    if (memcmp(memory, before, memory_length) == 0)
        printf(", as at first");
}

static void step_and_back(void)
{
    struct gate_record record;
    uint64_t cycles[1];
    const uint8_t number = make_step(cycles, &record);
    printf("step %u, bytes %" PRIu32, (unsigned)number, record.count);
    for (uint32_t at = 0; at < record.count && at < 2; at++)
        print_cell(record.bytes[at].address, record.bytes[at].value);
    printf(": ");
    print_after();
    printf("; ");
    print_back(&record);
}

static void back(void)
{
    struct gate_record record;
    memory_length = take(2);
    take_registers(GATE_REGISTERS);
    memcpy(record.registers, registers, sizeof registers);
    record.count = take(4);
    for (size_t at = 0; at < 2; at++) {
        record.bytes[at].address = take(4);
        record.bytes[at].value = take(1);
    }
    put_cells();
    print_back(&record);
}

static void save(void)
{
    uint8_t saved[GATE_SAVED_BYTES];
    take_registers(GATE_REGISTERS);
    const uint64_t high = take(4);
    const uint64_t steps = high << 32 | take(4);
    const uint8_t number = gate_save(registers, steps, saved);
    if (number == GATE_OK)
        printf("saved ");
    else
        printf("refused %u, ", (unsigned)number);
    for (size_t at = 0; at < GATE_SAVED_BYTES; at++)
        printf("%02X", (unsigned)saved[at]);
}

static void resume(void)
{
    uint64_t steps[1], cycles[1];
    uint16_t offset[1];
    take_limits();
    take_marks();
    memory_length = take(2);
    const size_t saved_length = take(1);
    const uint8_t *saved = take_bytes(saved_length);
    const uint32_t budget = take(4);
    take_image(take(1));
    put_cells();
    const uint8_t number = gate_resume(image, image_length, &limits, marks, marks_length, memory, memory_length,
                                       saved, saved_length, budget, registers, steps, cycles, offset);
    if (number == GATE_FINISHED || number == GATE_SPENT)
        print_answer(number);
    else
        print_refused(number, *offset);
    printf(" after %" PRIu64 ", cycles %" PRIu64 ": ", *steps, *cycles);
    print_after();
    print_marks();
}

/* The pairs of capital digits in a text, as bytes. */
static void read_fields(const char *text, const char *end)
{
    static const char digits[] = "0123456789ABCDEF";
    unsigned count = 0, value = 0;
    fields_length = next = 0;
    for (; text < end; text++) {
        const char *digit = strchr(digits, *text);
        if (digit == NULL)
            continue;
        value = (value << 4 | (unsigned)(digit - digits)) & 0xFF;
        if (++count % 2 == 0)
            fields[fields_length++] = (uint8_t)value;
    }
}

/* Prints a line anew; 0 if it is no case. */
static int replay(const char *line)
{
    static const struct { const char *word; void (*answer)(void); } kinds[] = {
        { " check ", check }, { " turn ", work_out_turn }, { " start ", start }, { " step ", step },
        { " run ", run }, { " record ", step_and_back }, { " back ", back }, { " save ", save }, { " resume ", resume },
    };
    const char *colon = strchr(line, ':');
    const char *equals = colon == NULL ? NULL : strchr(colon, '=');
    for (size_t kind = 0; equals != NULL && kind < sizeof kinds / sizeof kinds[0]; kind++) {
        if (strncmp(colon + 1, kinds[kind].word, strlen(kinds[kind].word)) != 0)
            continue;
        read_fields(colon, equals);
        printf("%.*s= ", (int)(equals - line), line);
        kinds[kind].answer();
        printf("\n");
        return 1;
    }
    return 0;
}

int main(void)
{
    static char line[LINE];
    while (fgets(line, sizeof line, stdin) != NULL)
        if (!replay(line)) {
            fprintf(stderr, "no case: %s", line);
            return EXIT_FAILURE;
        }
    return EXIT_SUCCESS;
}

/* A loader in C: checks an image, works out its turn, lists it, starts it and runs it, and prints cycles, registers and the bytes
 * that it stored. Then it steps through one, and back, and pauses another in the middle and goes on from there.
 *
 *     make
 *     gcc -Iinclude examples/loader.c target/staticlib/libgate_c.a -o loader
 *
 * or, where the library is installed, gcc examples/loader.c $(pkg-config --cflags --libs gate) -o loader.
 * examples/loader.sh builds and runs it and compares what is printed with examples/loader.expected. */
#include <inttypes.h>
#include <stdio.h>
#include <string.h>

#include "gate.h"

/* The budget of a run where no turn is given. */
enum { BUDGET = 100000 };

/* The second grant is in data EEPROM; GATE_NO_AREA would be none. */
static const struct gate_limits limits = {
    .grant = { 0x0000, 0x00FF },
    .stack = { 0x0300, 0x03FF },
    .second = { 0x4000, 0x401F },
};

/* One routine, which stores 5 at 0010. */
static const uint8_t store_five[] = {
    0x53, 0x4C, 0x55, 0x00, 0x01, 0x80, 0x00, 0x01, 0x00, 0x05, 0xA6, 0x05, 0xB7, 0x10, 0x81,
};

/* The first of two routines adds A to the word at 0020; main calls it with 100, 99 and so on down to 1. */
static const uint8_t sum_to_hundred[] = {
    0x53, 0x4C, 0x55, 0x00, 0x01, 0x80, 0x00, 0x02, 0x00, 0x0B, 0x00, 0x0F,
    0xBB, 0x21, 0xB7, 0x21, 0xB6, 0x20, 0xA9, 0x00, 0xB7, 0x20, 0x81,
    0x3F, 0x20, 0x3F, 0x21, 0xAE, 0x00, 0x64, 0x9F, 0xCD, 0x80, 0x00, 0x5A, 0x26, 0xF9, 0x81,
};

/* It widens the trim at 4000, in the second grant, by one step and copies it to 0019. */
static const uint8_t trim[] = {
    0x53, 0x4C, 0x55, 0x00, 0x01, 0x80, 0x00, 0x01, 0x00, 0x0A,
    0x72, 0x5C, 0x40, 0x00, 0x55, 0x40, 0x00, 0x00, 0x19, 0x81,
};

/* It stores at 0100, past the first grant and not in the second. */
static const uint8_t store_outside[] = {
    0x53, 0x4C, 0x55, 0x00, 0x01, 0x80, 0x00, 0x01, 0x00, 0x04, 0xC7, 0x01, 0x00, 0x81,
};

static uint16_t marks[GATE_MARKS_ENOUGH];
static uint8_t memory[GATE_MEMORY_BYTES];

/* An instruction's cycles as the manual prints them: one figure, or two where a jump may be taken. */
static void print_cycles(const uint8_t cycles[GATE_CYCLES])
{
    if (cycles[GATE_UNTAKEN] == cycles[GATE_TAKEN])
        printf(" %u  ", (unsigned)cycles[GATE_TAKEN]);
    else
        printf(" %u/%u", (unsigned)cycles[GATE_UNTAKEN], (unsigned)cycles[GATE_TAKEN]);
}

/* One line for each start of a routine of an accepted image: address, depth, cycles and text. */
static void list_routine(const uint8_t *code, unsigned base, unsigned begin, unsigned end)
{
    for (unsigned offset = begin; offset < end; offset++) {
        const uint16_t address = (uint16_t)(base + offset);
        uint8_t text[GATE_TEXT_BYTES], cycles[GATE_CYCLES];
        size_t length[1];
        if (marks[offset] == 0 || gate_decode(code + offset, end - offset, address, text, length, cycles) != GATE_OK)
            continue;
        printf("  %04X %u", (unsigned)address, marks[offset] - 1u);
        print_cycles(cycles);
        printf(" %s\n", (const char *)text);
    }
}

/* The routines of an accepted image, each with its number; the last is main. */
static void list(const uint8_t *image, size_t image_length)
{
    struct gate_layout layout;
    gate_layout(image, image_length, &layout);
    for (unsigned number = 0; number < layout.routines; number++) {
        const unsigned next = number + 1;
        if (next < layout.routines)
            printf("  routine %u\n", number);
        else
            printf("  main\n");
        list_routine(image + layout.code, layout.base, layout.begins[number],
                     next < layout.routines ? layout.begins[next] : layout.size);
    }
}

/* The bytes of an area that are not 0. */
static void print_area(struct gate_area area)
{
    for (unsigned address = area.low; address <= area.high; address++)
        if (memory[address] != 0)
            printf("  %04X: %02X\n", address, (unsigned)memory[address]);
}

static void print_state(const uint32_t registers[GATE_REGISTERS])
{
    printf("  A %02" PRIX32 ", X %04" PRIX32 ", Y %04" PRIX32 ", CC %02" PRIX32 ", SP %04" PRIX32 ", PC %06" PRIX32 "\n",
           registers[GATE_A], registers[GATE_X], registers[GATE_Y], registers[GATE_CC], registers[GATE_SP], registers[GATE_PC]);
    print_area(limits.grant);
    print_area(limits.second);
}

/* A budget for an accepted image: its turn, with which it finishes, if one is given. The marks stay as they are. */
static uint32_t budget(const uint8_t *image, size_t image_length)
{
    uint16_t offset[1];
    uint32_t turn[1];
    const uint8_t number = gate_turn(image, image_length, &limits, marks, GATE_MARKS_ENOUGH, offset, turn);
    if (number != GATE_OK) {
        printf("  %s\n", gate_number_text(number));
        return BUDGET;
    }
    printf("  the turn is %" PRIu32 "\n", turn[0]);
    return turn[0];
}

static void load(const char *name, const uint8_t *image, size_t image_length)
{
    uint32_t registers[GATE_REGISTERS] = {0};
    uint16_t report[GATE_REPORT];
    uint32_t steps[1];
    uint64_t cycles[1];
    memset(memory, 0, sizeof memory);
    const uint8_t verdict = gate_start(image, image_length, &limits, marks, GATE_MARKS_ENOUGH,
                                       memory, sizeof memory, registers, report);
    if (verdict != GATE_OK) {
        printf("%s: refused %u %u, %s\n", name, (unsigned)verdict, (unsigned)report[GATE_OFFSET], gate_number_text(verdict));
        return;
    }
    printf("%s: accepted %u %u\n", name, (unsigned)report[GATE_NEED], (unsigned)report[GATE_COUNT]);
    const uint32_t most = budget(image, image_length);
    list(image, image_length);
    const uint8_t ending = gate_run(image, image_length, &limits, memory, sizeof memory, registers, most, steps, cycles);
    printf("  %s after %" PRIu32 " steps and %" PRIu64 " cycles\n", gate_number_text(ending), steps[0], cycles[0]);
    print_state(registers);
}

/* The registers before a step, and the bytes that it overwrote, as they were. */
static void print_record(const struct gate_record *record)
{
    printf("  record: PC %06" PRIX32 ", bytes %" PRIu32, record->registers[GATE_PC], record->count);
    for (uint32_t number = 0; number < record->count; number++)
        printf(", %04" PRIX32 " was %02" PRIX32, record->bytes[number].address, record->bytes[number].value);
    printf("\n");
}

/* Two steps of the routine that stores 5, over a byte that held AA, and back again: the last record first. */
static void step_and_back(void)
{
    enum { STEPS = 2 };
    struct gate_record records[STEPS];
    uint32_t registers[GATE_REGISTERS] = {0};
    uint16_t report[GATE_REPORT];
    uint64_t cycles[1];
    memset(memory, 0, sizeof memory);
    memory[0x0010] = 0xAA;
    gate_start(store_five, sizeof store_five, &limits, marks, GATE_MARKS_ENOUGH, memory, sizeof memory, registers, report);
    printf("store five, step by step and back\n");
    print_state(registers);
    for (int number = 0; number < STEPS; number++) {
        gate_step(store_five, sizeof store_five, &limits, memory, sizeof memory, registers, cycles, &records[number]);
        print_record(&records[number]);
    }
    print_state(registers);
    for (int number = STEPS - 1; number >= 0; number--)
        gate_step_back(&records[number], memory, sizeof memory, registers);
    print_state(registers);
}

/* Runs the sum on from a saved state, with the memory as it is. */
static void resume(const uint8_t *saved, size_t saved_length)
{
    uint32_t registers[GATE_REGISTERS];
    uint64_t total[1], cycles[1];
    uint16_t offset[1];
    const uint8_t ending = gate_resume(sum_to_hundred, sizeof sum_to_hundred, &limits, marks, GATE_MARKS_ENOUGH,
                                       memory, sizeof memory, saved, saved_length, BUDGET, registers, total, cycles, offset);
    if (ending != GATE_FINISHED && ending != GATE_SPENT) {
        printf("  refused %u %u, %s\n", (unsigned)ending, (unsigned)offset[0], gate_number_text(ending));
        return;
    }
    printf("  %s after %" PRIu64 " steps in all, and %" PRIu64 " cycles since resumed\n", gate_number_text(ending), total[0], cycles[0]);
    print_state(registers);
}

/* The sum after seven steps as it was saved before library 0.5.0, in version 0001: its steps have 4 bytes. */
static const uint8_t kept[] = {
    'S', 'L', 'S', 0x00, 0x01, 0x80, 0x04, 0x03, 0xFB, 0x64, 0x00, 0x64, 0x00, 0x00, 0x00, 0x00, 0x00, 0x00, 0x07,
};

/* Pauses the sum after seven steps, in the routine that main calls, and goes on from 23 bytes and the memory, and then from the 19 that
 * were kept. Without the memory, where the routine's return address lies, there is no going on. */
static void pause_and_resume(void)
{
    enum { STEPS = 7 };
    static uint8_t paused[GATE_MEMORY_BYTES];
    uint8_t saved[GATE_SAVED_BYTES];
    uint32_t registers[GATE_REGISTERS] = {0};
    uint16_t report[GATE_REPORT];
    uint32_t steps[1];
    uint64_t cycles[1];
    memset(memory, 0, sizeof memory);
    gate_start(sum_to_hundred, sizeof sum_to_hundred, &limits, marks, GATE_MARKS_ENOUGH, memory, sizeof memory, registers, report);
    gate_run(sum_to_hundred, sizeof sum_to_hundred, &limits, memory, sizeof memory, registers, STEPS, steps, cycles);
    if (gate_save(registers, steps[0], saved) != GATE_OK)
        return;
    printf("sum to a hundred, paused and resumed\n");
    print_state(registers);
    printf("  saved");
    for (unsigned number = 0; number < GATE_SAVED_BYTES; number++)
        printf(" %02X", (unsigned)saved[number]);
    printf("\n");
    memcpy(paused, memory, sizeof memory);
    resume(saved, sizeof saved);
    memcpy(memory, paused, sizeof memory);
    resume(kept, sizeof kept);
    memset(memory, 0, sizeof memory);
    resume(saved, sizeof saved);
    resume(saved, sizeof saved - 1);
}

/* Whether header and archive are of one version. */
static int is_of_this_header(uint32_t version)
{
    return version == GATE_LIBRARY_MAJOR * 65536u + GATE_LIBRARY_MINOR * 256u + GATE_LIBRARY_PATCH;
}

int main(void)
{
    if (!is_of_this_header(gate_library_version())) {
        fprintf(stderr, "the library is not of version " GATE_LIBRARY_VERSION ", as gate.h is\n");
        return 1;
    }
    load("store five", store_five, sizeof store_five);
    load("sum to a hundred", sum_to_hundred, sizeof sum_to_hundred);
    load("trim", trim, sizeof trim);
    load("store outside", store_outside, sizeof store_outside);
    step_and_back();
    pause_and_resume();
    return 0;
}

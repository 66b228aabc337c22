/* The stack that each function of the library takes of its caller, measured: a thread paints its stack below itself, makes the call,
 * and what is no longer paint was used. OWN_BYTES of it, at the thread's end, are left unpainted for the thread's own frame. */
#define _GNU_SOURCE
#include <pthread.h>
#include <stdio.h>
#include <stdlib.h>
#include <string.h>

#include "gate.h"

enum { STACK_BYTES = 1 << 20, OWN_BYTES = 192, PAINT = 0xA5, HEADER_BYTES = 8, LENGTH_BYTES = 4, MOST_CODE = 4096, OLD_BYTES = 19 };

static const struct gate_limits limits = { .grant = { 0x0000, 0x00FF }, .stack = { 0x0300, 0x03FF }, .second = GATE_NO_AREA };

/* What the calls are lent. */
static uint8_t image[HEADER_BYTES + LENGTH_BYTES + MOST_CODE];
static size_t image_length;
static uint16_t marks[GATE_MARKS_ENOUGH], report[GATE_REPORT], offset[1];
static uint8_t memory[GATE_MEMORY_BYTES], saved[GATE_SAVED_BYTES], paused[GATE_SAVED_BYTES], old[OLD_BYTES];
static uint32_t registers[GATE_REGISTERS], resumed[GATE_REGISTERS], steps[1], most_steps[1];
static uint64_t cycles[1], total[1];
static struct gate_record record;
static struct gate_layout layout;

static void check(void) { gate_check(image, image_length, &limits, marks, GATE_MARKS_ENOUGH, report); }

static void turn(void) { gate_turn(image, image_length, &limits, marks, GATE_MARKS_ENOUGH, offset, most_steps); }

static void start(void)
{
    gate_start(image, image_length, &limits, marks, GATE_MARKS_ENOUGH, memory, sizeof memory, registers, report);
}

static void step(void) { gate_step(image, image_length, &limits, memory, sizeof memory, registers, cycles, &record); }

static void step_back(void) { gate_step_back(&record, memory, sizeof memory, registers); }

static void run(void) { gate_run(image, image_length, &limits, memory, sizeof memory, registers, 100000, steps, cycles); }

static void save(void) { gate_save(registers, 0, saved); }

static void resume(void)
{
    gate_resume(image, image_length, &limits, marks, GATE_MARKS_ENOUGH, memory, sizeof memory, paused, sizeof paused, 100000,
                resumed, total, cycles, offset);
}

static void resume_old(void)
{
    gate_resume(image, image_length, &limits, marks, GATE_MARKS_ENOUGH, memory, sizeof memory, old, sizeof old, 100000,
                resumed, total, cycles, offset);
}

static void decode(void)
{
    uint8_t text[GATE_TEXT_BYTES], figures[GATE_CYCLES];
    size_t length[1];
    for (size_t at = image_length - layout.size; at < image_length; at++)
        gate_decode(image + at, image_length - at, 0x8000, text, length, figures);
}

static void lay_out(void) { gate_layout(image, image_length, &layout); }

/* Each function, gate_resume also from version 0001, and the most that gate.h says it takes. */
static const struct { const char *name; void (*call)(void); size_t most; } calls[] = {
    { "gate_check", check, 82 * 1024 },
    { "gate_turn", turn, 82 * 1024 },
    { "gate_start", start, 82 * 1024 },
    { "gate_step", step, 1024 },
    { "gate_step_back", step_back, 1024 },
    { "gate_run", run, 1024 },
    { "gate_save", save, 1024 },
    { "gate_resume", resume, 82 * 1024 },
    { "gate_resume old", resume_old, 82 * 1024 },
    { "gate_decode", decode, 1024 },
    { "gate_layout", lay_out, 1024 },
};

enum { CALLS = sizeof calls / sizeof calls[0] };

struct measured { void (*call)(void); size_t bytes; };

static uint8_t stack[STACK_BYTES] __attribute__((aligned(64)));

static void *on_thread(void *argument)
{
    struct measured *measured = argument;
    volatile uint8_t *const own = (uint8_t *)__builtin_frame_address(0) - OWN_BYTES;
    for (volatile uint8_t *byte = stack; byte < own; byte++)
        *byte = PAINT;
    measured->call();
    const uint8_t *lowest = stack;
    while (lowest < own && *lowest == PAINT)
        lowest++;
    measured->bytes = (size_t)(own + OWN_BYTES - lowest);
    return NULL;
}

/* The bytes that a call took, OWN_BYTES at least. */
static size_t used(void (*call)(void))
{
    struct measured measured = { call, 0 };
    pthread_attr_t attributes;
    pthread_t thread;
    if (pthread_attr_init(&attributes) || pthread_attr_setstack(&attributes, stack, sizeof stack)
        || pthread_create(&thread, &attributes, on_thread, &measured) || pthread_join(thread, NULL)) {
        fprintf(stderr, "no thread could be had\n");
        exit(1);
    }
    return measured.bytes;
}

/* An image of two routines, NOPs and RET, and main: the same; or before it as many bytes as there may be, of pairs of PUSH A and POP A,
 * jumps to the next instruction, stores, bit jumps, calls, or noise. */
static void make_image(unsigned kind)
{
    static const uint8_t leaf[] = { 0x9D, 0x9D, 0x9D, 0x81 };
    static const uint8_t patterns[][sizeof leaf] = {
        { 0x88, 0x84, 0x88, 0x84 }, { 0x26, 0x00, 0x27, 0x00 }, { 0xB7, 0x10, 0xB6, 0x10 }, { 0x72, 0x01, 0x00, 0x10 },
        { 0xCD, 0x80, 0x00, 0x9D },
    };
    const size_t size = kind == 0 ? sizeof leaf : MOST_CODE - sizeof leaf;
    const uint8_t header[HEADER_BYTES + LENGTH_BYTES] = {
        'S', 'L', 'U', 0x00, 0x01, 0x80, 0x00, 0x02, 0x00, sizeof leaf, (uint8_t)(size >> 8), (uint8_t)size,
    };
    uint8_t *const code = image + sizeof header, *const last = code + size;
    memcpy(image, header, sizeof header);
    memcpy(code, leaf, sizeof leaf);
    for (uint8_t *byte = code + sizeof leaf; byte < last; byte++)
        *byte = kind <= sizeof patterns / sizeof leaf ? patterns[kind - 1][(byte - code) % sizeof leaf] : (uint8_t)rand();
    memcpy(last, leaf, sizeof leaf);
    image_length = sizeof header + sizeof leaf + size;
    memset(memory, 0, sizeof memory);
}

/* Starts, and keeps for gate_resume where the routine stands after two steps: in the first one, where main begins with a call. The
 * same in version 0001 has but the low half of the steps. */
static void start_and_pause(void)
{
    enum { BEFORE_STEPS = 15 };
    start();
    gate_run(image, image_length, &limits, memory, sizeof memory, registers, 2, steps, cycles);
    gate_save(registers, steps[0], paused);
    memcpy(old, paused, BEFORE_STEPS);
    old[4] = 0x01;
    memcpy(old + BEFORE_STEPS, paused + BEFORE_STEPS + 4, 4);
}

int main(void)
{
    enum { KINDS = 40 };
    size_t most[CALLS] = { 0 };
    for (unsigned kind = 0; kind < KINDS; kind++) {
        make_image(kind);
        lay_out();
        start_and_pause();
        for (int number = 0; number < CALLS; number++) {
            const size_t bytes = used(calls[number].call);
            if (bytes > most[number])
                most[number] = bytes;
        }
    }
    int within = 1;
    for (int number = 0; number < CALLS; number++) {
        printf("%-15s %zu of %zu bytes\n", calls[number].name, most[number], calls[number].most);
        within = within && most[number] <= calls[number].most;
    }
    return within ? 0 : 1;
}

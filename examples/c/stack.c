/* How much stack each call takes on this machine: it is run on a stack of its own that was painted before, and counts what is no
 * longer paint: stack CHIP, where CHIP keeps an order of image 2 that waits. Built without the sanitizers. */
#define _XOPEN_SOURCE 600
#include "deluge.h"
#include <stdio.h>
#include <string.h>
#include <ucontext.h>

enum { STACK = 131072, PAINT = 0xa5, MOST_COMMANDS = 4096, MOST_BYTES = 131072 };

static uint8_t stack[STACK];
static ucontext_t caller, called;

static uint8_t frame[DELUGE_FRAME_BYTES], line[DELUGE_LINE_BYTES], page[DELUGE_PAGE_BYTES], digest[DELUGE_DIGEST_BYTES];
static struct deluge_message message = {.kind = DELUGE_WIDE, .source = 1};
static struct deluge_descriptor descriptor;
static struct deluge_timer timer;
static uint32_t act;
static size_t count, written;

static void nothing(void)
{
}

static void crc(void)
{
    act += deluge_crc16(0, page, sizeof page);
}

static void frame_write(void)
{
    act += deluge_frame_write(&message, frame, sizeof frame, &count);
}

static void frame_read(void)
{
    act += deluge_frame_read(frame, count, true, &message);
}

static void stuff(void)
{
    act += deluge_stuff(frame, count, line, sizeof line, &written);
}

static void unstuff(void)
{
    act += deluge_unstuff(line, written - 1, frame, sizeof frame, &count);
}

static void timer_calls(void)
{
    act += deluge_timer_start(&timer, 0, 0);
    act += deluge_timer_other(&timer, 1000, 0);
    act += deluge_timer_tick(&timer, 2000, 0, &act);
}

static void descriptor_read(void)
{
    act += deluge_descriptor_read(page, sizeof page, &descriptor);
}

static void page_check(void)
{
    act += deluge_page_check(page, sizeof page, page, sizeof page, 1);
}

static void page_digest(void)
{
    act += deluge_page_digest(page, sizeof page, digest, sizeof digest);
}

static uint8_t chip[DELUGE_CHIP_BYTES], bytes[MOST_BYTES];
static struct deluge_command commands[MOST_COMMANDS];
static struct deluge_started started;
static struct deluge_kept held;

static void plan_start(void)
{
    act += deluge_plan_start(chip, sizeof chip, DELUGE_POWER, commands, MOST_COMMANDS, bytes, MOST_BYTES, &count, &started);
}

static void plan_take(void)
{
    const struct deluge_profile profile = {.version = 1, .image = 1, .pages = 2};
    act += deluge_plan_take(chip, sizeof chip, &profile, commands, MOST_COMMANDS, bytes, MOST_BYTES, &count);
}

static void plan_packet(void)
{
    const struct deluge_packet packet = {.version = 1, .image = 1, .page = 0};
    act += deluge_plan_packet(chip, sizeof chip, &packet, commands, MOST_COMMANDS, bytes, MOST_BYTES, &count);
}

/* The slot that was taken is there, for a packet of it. */
static void carry_out(void)
{
    for (const struct deluge_command *c = commands; c < commands + count; c++)
        for (size_t i = 0; i < c->count; i++)
            chip[c->at + i] = c->kind == DELUGE_ERASE ? 0xff : chip[c->at + i] & bytes[c->from + i];
}

static void plan_seal(void)
{
    act += deluge_plan_seal(chip, sizeof chip, 1, 1, 0, commands, MOST_COMMANDS, bytes, MOST_BYTES, &count);
}

static void plan_inject(void)
{
    act += deluge_plan_inject(chip, sizeof chip, 1, 1, (const uint8_t *)"one", 3, page, sizeof page, commands, MOST_COMMANDS, bytes,
        MOST_BYTES, &count);
}

static void plan_order(void)
{
    const struct deluge_order order = {.number = 9, .image = 1, .version = 1};
    act += deluge_plan_order(chip, sizeof chip, &order, commands, MOST_COMMANDS, bytes, MOST_BYTES, &count);
}

static void kept(void)
{
    act += deluge_kept(chip, sizeof chip, 2, &held);
}

static size_t used(void (*call)(void))
{
    memset(stack, PAINT, sizeof stack);
    getcontext(&called);
    called.uc_stack.ss_sp = stack;
    called.uc_stack.ss_size = sizeof stack;
    called.uc_link = &caller;
    makecontext(&called, call, 0);
    swapcontext(&caller, &called);
    size_t left = 0;
    while (left < sizeof stack && stack[left] == PAINT)
        left++;
    return sizeof stack - left;
}

int main(int words_count, char **words)
{
    FILE *file = words_count == 2 ? fopen(words[1], "rb") : NULL;
    if (file == NULL || fread(chip, 1, sizeof chip, file) != sizeof chip)
        return 2;
    static const struct {
        const char *name;
        void (*call)(void);
    } calls[] = {{"deluge_crc16", crc}, {"deluge_frame_write", frame_write}, {"deluge_frame_read", frame_read},
        {"deluge_stuff", stuff}, {"deluge_unstuff", unstuff}, {"deluge_timer_*", timer_calls},
        {"deluge_descriptor_read", descriptor_read}, {"deluge_page_check", page_check}, {"deluge_page_digest", page_digest},
        {"deluge_kept", kept}, {"deluge_plan_start", plan_start}, {"deluge_plan_inject", plan_inject},
        {"deluge_plan_order", plan_order}, {"deluge_plan_take", plan_take}, {"deluge_plan_packet", plan_packet},
        {"deluge_plan_seal", plan_seal}};
    size_t base = used(nothing);
    /* A descriptor that is read to its end: one byte of an image of this length in one data page. */
    memset(page, 0xff, sizeof page);
    memcpy(page, "DG\1\2\0\0\0\1\0\0\0\1a\0\0\0\0\0\0\0\0\0\0\0\0\0\0\0", 28);
    for (size_t i = 0; i < sizeof calls / sizeof calls[0]; i++) {
        printf("%s %zu\n", calls[i].name, used(calls[i].call) - base);
        if (calls[i].call == plan_take)
            carry_out();
    }
    return 0;
}

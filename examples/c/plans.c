/* A machine that carries plans out over the chip of a file, as a firmware does over its flash.
 *
 *     plans CHIP [stop N MASK] start CAUSE
 *     plans CHIP [stop N MASK] take IMAGE VERSION PAGES CRC
 *     plans CHIP [stop N MASK] order NUMBER IMAGE VERSION
 *     plans CHIP [stop N MASK] inject IMAGE VERSION NAME CONTENT
 *     plans CHIP [stop N MASK] fill IMAGE SOURCE
 *
 * The last takes an image that the chip of another file keeps whole, packet by packet: a take, and the packets and the seal of
 * each page that is missing. The stop counts over all of them.
 *
 * Writes the answer and how many commands there were. With `stop` the power goes in operation N, which leaves what `cut N MASK`
 * of a script leaves. Each plan is made again for every shorter list too, which is to hold its beginning. */
#include "deluge.h"
#include <stdio.h>
#include <stdlib.h>
#include <string.h>

enum { MOST_COMMANDS = 4096, MOST_BYTES = 131072, MOST_MASK = 2048 };

struct list {
    struct deluge_command commands[MOST_COMMANDS];
    uint8_t bytes[MOST_BYTES];
    size_t count;
};

static uint8_t chip[DELUGE_CHIP_BYTES];
static struct list whole, part;
static char **words;

/* How many operations are made before the power goes, and what the next one leaves. */
static size_t left = SIZE_MAX, mask_bytes = 1;
static uint8_t mask[MOST_MASK];

static unsigned word(int i)
{
    return words[i] == NULL ? 0 : (unsigned)strtoul(words[i], NULL, 0);
}

static uint32_t started(struct list *list, size_t room, size_t bytes_room)
{
    struct deluge_started told = {0};
    uint32_t answer = deluge_plan_start(chip, sizeof chip, word(1), list->commands, room, list->bytes, bytes_room, &list->count, &told);
    if (answer == DELUGE_DONE && list == &whole)
        printf("start %u %u %u %04x\n", told.image, (unsigned)told.version, (unsigned)told.length, told.crc);
    return answer;
}

/* What `take` and `fill` take a slot for. */
static struct deluge_profile profile;

static uint32_t taken(struct list *list, size_t room, size_t bytes_room)
{
    return deluge_plan_take(chip, sizeof chip, &profile, list->commands, room, list->bytes, bytes_room, &list->count);
}

static uint32_t ordered(struct list *list, size_t room, size_t bytes_room)
{
    struct deluge_order order = {.number = word(1), .image = (uint8_t)word(2), .version = word(3)};
    return deluge_plan_order(chip, sizeof chip, &order, list->commands, room, list->bytes, bytes_room, &list->count);
}

static uint32_t injected(struct list *list, size_t room, size_t bytes_room)
{
    const char *name = words[3], *content = words[4];
    return deluge_plan_inject(chip, sizeof chip, (uint8_t)word(1), word(2), (const uint8_t *)name, strlen(name),
        (const uint8_t *)content, strlen(content), list->commands, room, list->bytes, bytes_room, &list->count);
}

/* What `fill` puts, and seals. */
static struct deluge_packet packet;

static uint32_t put(struct list *list, size_t room, size_t bytes_room)
{
    return deluge_plan_packet(chip, sizeof chip, &packet, list->commands, room, list->bytes, bytes_room, &list->count);
}

static uint32_t sealed(struct list *list, size_t room, size_t bytes_room)
{
    return deluge_plan_seal(chip, sizeof chip, packet.image, packet.version, packet.page, list->commands, room, list->bytes,
        bytes_room, &list->count);
}

static const struct act {
    const char *name;
    uint32_t (*plan)(struct list *list, size_t room, size_t bytes_room);
} acts[] = {{"start", started}, {"take", taken}, {"order", ordered}, {"inject", injected}}, putting = {"packet", put},
  sealing = {"seal", sealed};

/* The bytes of a command. */
static const uint8_t *bytes_of(const struct list *list, const struct deluge_command *c)
{
    return c->kind == DELUGE_COPY ? chip + c->from : list->bytes + c->from;
}

/* Makes an operation, or leaves a part of it where the power goes. */
static bool operate(const struct list *list, const struct deluge_command *c)
{
    bool torn = left == 0;
    for (size_t i = 0; i < c->count; i++) {
        uint8_t *cell = chip + c->at + i, m = mask[i % mask_bytes];
        if (c->kind == DELUGE_ERASE)
            *cell = torn ? m : 0xff;
        else
            *cell &= (uint8_t)(bytes_of(list, c)[i] | (torn ? m : 0));
    }
    left -= !torn;
    return !torn;
}

/* The list of a shorter room begins as the whole one does. */
static bool begins(const struct act *act, size_t room)
{
    if (act->plan(&part, room, MOST_BYTES) != DELUGE_ROOM || part.count != room)
        return false;
    for (size_t k = 0; k < room; k++) {
        const struct deluge_command *c = &part.commands[k], *d = &whole.commands[k];
        if (c->kind != d->kind || c->at != d->at || c->count != d->count || c->from != d->from
            || (c->kind == DELUGE_PROGRAM && memcmp(part.bytes + c->from, whole.bytes + d->from, c->count) != 0))
            return false;
    }
    return true;
}

enum end { CARRIED_OUT, STOPPED, REFUSED, BROKEN };

/* Plans an act, and carries it out up to the stop. */
static enum end play(const struct act *act)
{
    uint32_t answer = act->plan(&whole, MOST_COMMANDS, MOST_BYTES);
    if (act != &putting && act != &sealing)
        printf("%s %u %zu\n", act->name, (unsigned)answer, whole.count);
    if (answer == DELUGE_DONE)
        for (size_t room = 0; room < whole.count; room += 1 + whole.count / 64)
            if (!begins(act, room))
                return BROKEN;
    for (size_t k = 0; k < whole.count; k++)
        if (!operate(&whole, &whole.commands[k]))
            return STOPPED;
    return answer == DELUGE_DONE ? CARRIED_OUT : REFUSED;
}

/* Puts the packets of a page, and seals it. */
static enum end fill_page(const uint8_t *page)
{
    memset(packet.got, 0, sizeof packet.got);
    for (packet.packet = 0; packet.packet < DELUGE_PACKETS; packet.packet++) {
        memcpy(packet.bytes, page + DELUGE_PACKET_BYTES * packet.packet, DELUGE_PACKET_BYTES);
        enum end end = play(&putting);
        if (end != CARRIED_OUT)
            return end;
        packet.got[packet.packet / 8] |= (uint8_t)(0x80 >> packet.packet % 8);
    }
    return play(&sealing);
}

static enum end fill(void)
{
    enum { FIRST_SLOT = 68, SLOT_SECTORS = 66 };
    static uint8_t source[DELUGE_CHIP_BYTES];
    struct deluge_kept wanted, kept;
    FILE *file = fopen(words[2], "rb");
    uint8_t image = (uint8_t)word(1);
    if (file == NULL || fread(source, 1, sizeof source, file) != sizeof source || fclose(file) != 0
        || deluge_kept(source, sizeof source, image, &wanted) != DELUGE_DONE)
        return BROKEN;
    profile = (struct deluge_profile){.version = wanted.version, .crc = wanted.crc, .image = image, .pages = wanted.pages};
    if (deluge_kept(chip, sizeof chip, image, &kept) != DELUGE_DONE || kept.version != wanted.version) {
        enum end end = play(&acts[1]);
        if (end != CARRIED_OUT)
            return end;
        kept.done = 0;
    }
    packet = (struct deluge_packet){.version = wanted.version, .image = image};
    for (packet.page = kept.done; packet.page < wanted.pages; packet.page++) {
        enum end end = fill_page(source + DELUGE_SECTOR_BYTES * (FIRST_SLOT + SLOT_SECTORS * image + 1u + packet.page));
        if (end != CARRIED_OUT)
            return end;
    }
    return CARRIED_OUT;
}

/* The power goes in operation `n`. */
static int stop_at(unsigned n, const char *digits)
{
    left = n - 1;
    for (mask_bytes = 0; mask_bytes < MOST_MASK && sscanf(digits + 2 * mask_bytes, "%2hhx", &mask[mask_bytes]) == 1;)
        mask_bytes++;
    return n == 0 || mask_bytes == 0;
}

int main(int count, char **given)
{
    if (count < 3)
        return 2;
    FILE *file = fopen(given[1], "r+b");
    if (file == NULL || fread(chip, 1, sizeof chip, file) != sizeof chip)
        return 3;
    words = given + 2;
    if (strcmp(words[0], "stop") == 0) {
        if (count < 6 || stop_at(word(1), words[2]) != 0)
            return 2;
        words += 3;
    }
    enum end end = BROKEN;
    if (strcmp(words[0], "fill") == 0)
        end = fill();
    if (strcmp(words[0], "take") == 0)
        profile = (struct deluge_profile){.image = (uint8_t)word(1), .version = word(2), .pages = (uint8_t)word(3),
            .crc = (uint16_t)word(4)};
    for (size_t i = 0; i < sizeof acts / sizeof acts[0]; i++)
        if (strcmp(words[0], acts[i].name) == 0)
            end = play(&acts[i]);
    rewind(file);
    return end == BROKEN || fwrite(chip, 1, sizeof chip, file) != sizeof chip || fclose(file) != 0;
}

/* A firmware that gets an image over a UART and starts it: firmware DEVICE CHIP. At the other end of the line is a mote, as
 * `deluge base` is one. The file CHIP stands for flash that is mapped, and `carry_out` for its driver. */
#include "deluge.h"
#include <fcntl.h>
#include <poll.h>
#include <stdio.h>
#include <string.h>
#include <unistd.h>

enum { ME = 9, PATIENCE = 1024 /* milliseconds until a request is made again */ };

static uint8_t chip[DELUGE_CHIP_BYTES];
static struct deluge_command list[DELUGE_START_COMMANDS];
static uint8_t data[DELUGE_START_BYTES];
static size_t planned;
static int uart;

/* What is asked for: the next page of an image that a neighbour has. `next` says which packets of it came, and is filled in with
 * the one that comes. */
static struct {
    bool asks;
    uint16_t neighbour;
    uint8_t count;
    struct deluge_packet next;
} job;

static void carry_out(void)
{
    for (const struct deluge_command *c = list; c < list + planned; c++) {
        uint8_t *to = chip + c->at;
        const uint8_t *from = c->kind == DELUGE_COPY ? chip + c->from : data + c->from;
        for (size_t i = 0; i < c->count; i++)
            to[i] = c->kind == DELUGE_ERASE ? 0xff : to[i] & from[i];
    }
}

static void request(void)
{
    struct deluge_message m = {.kind = DELUGE_REQUEST, .source = ME, .to = job.neighbour, .image = job.next.image,
        .version = job.next.version, .page = job.next.page};
    uint8_t frame[DELUGE_FRAME_BYTES], line[DELUGE_LINE_BYTES];
    size_t count, written;
    for (size_t i = 0; i < sizeof m.want; i++)
        m.want[i] = (uint8_t)~job.next.got[i];
    if (deluge_frame_write(&m, frame, sizeof frame, &count) == DELUGE_DONE
        && deluge_stuff(frame, count, line, sizeof line, &written) == DELUGE_DONE && write(uart, line, written) < 0)
        perror("line");
}

/* Asks for the next page of an image, if one is missing. */
static void go_on(uint8_t image, uint32_t version)
{
    struct deluge_kept kept;
    job.asks = deluge_kept(chip, sizeof chip, image, &kept) == DELUGE_DONE && kept.version == version && kept.done < kept.pages;
    if (!job.asks)
        return;
    job.next = (struct deluge_packet){.version = version, .image = image, .page = kept.done};
    job.count = 0;
    request();
}

/* A newer image that a neighbour has whole is taken, and one that is not whole here goes on. An order is kept. */
static void hear_advert(const struct deluge_message *m)
{
    for (uint8_t i = 1; i <= 6 && !job.asks; i++) {
        const struct deluge_entry *e = &m->entries[i - 1];
        struct deluge_profile profile = {.version = e->version, .crc = e->crc, .image = i, .pages = e->pages};
        if (e->have == 0 || e->have < e->pages)
            continue;
        if (deluge_plan_take(chip, sizeof chip, &profile, list, DELUGE_START_COMMANDS, data, sizeof data, &planned) == DELUGE_DONE)
            carry_out();
        job.neighbour = m->source;
        go_on(i, e->version);
    }
    if (deluge_plan_order(chip, sizeof chip, &m->order, list, DELUGE_START_COMMANDS, data, sizeof data, &planned) == DELUGE_DONE)
        carry_out();
}

/* A packet that is missing is programmed. With the last one the page is complete, if its CRC is right. */
static void hear_packet(const struct deluge_message *m)
{
    struct deluge_packet *p = &job.next;
    p->packet = m->packet;
    memcpy(p->bytes, m->bytes, sizeof p->bytes);
    if (!job.asks || m->image != p->image || m->version != p->version || m->page != p->page
        || deluge_plan_packet(chip, sizeof chip, p, list, DELUGE_START_COMMANDS, data, sizeof data, &planned) != DELUGE_DONE)
        return;
    carry_out();
    p->got[p->packet / 8] |= 0x80 >> p->packet % 8;
    if (++job.count < DELUGE_PACKETS)
        return;
    if (deluge_plan_seal(chip, sizeof chip, p->image, p->version, p->page, list, DELUGE_START_COMMANDS, data, sizeof data, &planned)
        == DELUGE_DONE)
        carry_out();
    go_on(p->image, p->version);
}

static void hear(const uint8_t *piece, size_t count)
{
    uint8_t frame[DELUGE_FRAME_BYTES];
    size_t written;
    struct deluge_message m;
    if (deluge_unstuff(piece, count, frame, sizeof frame, &written) != DELUGE_DONE
        || deluge_frame_read(frame, written, true, &m) != DELUGE_DONE)
        return;
    if (m.kind == DELUGE_WIDE || m.kind == DELUGE_ADVERT)
        hear_advert(&m);
    if (m.kind == DELUGE_PACKET)
        hear_packet(&m);
}

/* Starts what is ordered, once it is whole. */
static bool start(uint32_t cause)
{
    struct deluge_started told;
    if (deluge_plan_start(chip, sizeof chip, cause, list, DELUGE_START_COMMANDS, data, sizeof data, &planned, &told) != DELUGE_DONE
        || (cause == DELUGE_ORDER_WAITS && planned == 0))
        return false;
    carry_out();
    printf("start %u %u %u %04x\n", told.image, (unsigned)told.version, (unsigned)told.length, told.crc);
    return true;
}

int main(int count, char **words)
{
    FILE *file = count == 3 ? fopen(words[2], "r+b") : NULL;
    uart = count == 3 ? open(words[1], O_RDWR | O_NOCTTY) : -1;
    if (file == NULL || uart < 0 || fread(chip, 1, sizeof chip, file) != sizeof chip || !start(DELUGE_POWER))
        return 1;
    uint8_t piece[DELUGE_LINE_BYTES - 1], byte;
    size_t at = 0;
    struct pollfd line = {.fd = uart, .events = POLLIN};
    while (job.asks || !start(DELUGE_ORDER_WAITS)) {
        int ready = poll(&line, 1, PATIENCE);
        if (ready == 0 && job.asks)
            request();
        if (ready <= 0)
            continue;
        if (read(uart, &byte, 1) != 1)
            return 2;
        if (byte != DELUGE_FLAG && at <= sizeof piece)
            piece[at < sizeof piece ? at : 0] = byte, at++;
        if (byte == DELUGE_FLAG && at <= sizeof piece)
            hear(piece, at);
        if (byte == DELUGE_FLAG)
            at = 0;
    }
    rewind(file);
    return fwrite(chip, 1, sizeof chip, file) == sizeof chip && fclose(file) == 0 ? 0 : 3;
}

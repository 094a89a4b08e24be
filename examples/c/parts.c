/* The codec, the serial line and the timer from C: writes what the programs part_codec and part_timer write. */
#include "deluge.h"
#include <stdio.h>
#include <string.h>

#define MUST(call)                                                   \
    do {                                                             \
        uint32_t answer = (call);                                    \
        if (answer != DELUGE_DONE) {                                 \
            fprintf(stderr, "%s: %u\n", #call, (unsigned)answer);    \
            return 1;                                                \
        }                                                            \
    } while (0)

#define IS(call, wanted)                                                               \
    do {                                                                               \
        uint32_t answer = (call);                                                      \
        if (answer != (wanted)) {                                                      \
            fprintf(stderr, "%s: %u, not %s\n", #call, (unsigned)answer, #wanted);     \
            return 1;                                                                  \
        }                                                                              \
    } while (0)

/* A packet of mote 7e, on the line and back. */
static int codec(void)
{
    struct deluge_message packet = {.kind = DELUGE_PACKET, .image = 1, .source = 0x7e, .version = 1}, back;
    uint8_t frame[DELUGE_FRAME_BYTES], again[DELUGE_FRAME_BYTES], line[DELUGE_LINE_BYTES];
    size_t count, written, read;
    memcpy(packet.bytes, "abcdefghijklmnopqrstuvw", sizeof packet.bytes);
    MUST(deluge_frame_write(&packet, frame, sizeof frame, &count));
    MUST(deluge_stuff(frame, count, line, sizeof line, &written));
    for (size_t i = 0; i < written; i++)
        printf("%02x", line[i]);
    MUST(deluge_unstuff(line, written - 1, again, sizeof again, &read));
    MUST(deluge_frame_read(again, read, true, &back));
    bool same = back.kind == packet.kind && back.image == 1 && back.version == 1 && back.source == 0x7e && back.page == 0
                && back.packet == 0 && memcmp(back.bytes, packet.bytes, sizeof back.bytes) == 0;
    printf(" read back: %s\n", same ? "true" : "false");

    /* What is wrong is an answer. */
    frame[5] ^= 1;
    IS(deluge_frame_read(frame, count, true, &back), DELUGE_CHECK);
    IS(deluge_frame_read(frame, count - 1, true, &back), DELUGE_LENGTH);
    IS(deluge_frame_read(frame, 4, true, &back), DELUGE_SHORT);
    frame[0] = 9;
    IS(deluge_frame_read(frame, count, true, &back), DELUGE_KIND);
    packet.image = 7;
    IS(deluge_frame_write(&packet, frame, sizeof frame, &count), DELUGE_RANGE);
    packet.kind = 9;
    IS(deluge_frame_write(&packet, frame, sizeof frame, &count), DELUGE_KIND);
    packet.kind = DELUGE_PACKET;
    packet.image = 1;
    IS(deluge_frame_write(&packet, frame, 34, &count), DELUGE_ROOM);
    IS(deluge_stuff(frame, 0, line, sizeof line, &written), DELUGE_LENGTH);
    IS(deluge_stuff(frame, 64, line, 64, &written), DELUGE_ROOM);
    IS(deluge_unstuff(line, 0, again, sizeof again, &read), DELUGE_SHORT);
    IS(deluge_unstuff((const uint8_t *)"ab\x7d", 3, again, sizeof again, &read), DELUGE_BROKEN);
    IS(deluge_unstuff((const uint8_t *)"a\x7e" "b", 3, again, sizeof again, &read), DELUGE_FLAG_WITHIN);
    uint8_t flood[65] = {0};
    IS(deluge_unstuff(flood, sizeof flood, again, sizeof again, &read), DELUGE_LONG);
    IS(deluge_unstuff(flood, 64, again, 63, &read), DELUGE_ROOM);
    return 0;
}

/* A request and both adverts come back as they were. */
static int messages(void)
{
    struct deluge_message sent = {.kind = DELUGE_REQUEST, .image = 2, .page = 3, .source = 1, .to = 2, .version = 9}, back;
    uint8_t frame[DELUGE_FRAME_BYTES];
    size_t count;
    sent.want[0] = 0x80;
    sent.want[5] = 0x01;
    MUST(deluge_frame_write(&sent, frame, sizeof frame, &count));
    MUST(deluge_frame_read(frame, count, true, &back));
    IS((uint32_t)memcmp(&back.want, &sent.want, sizeof sent.want), 0u);
    IS((uint32_t)(back.to == 2 && back.page == 3 && count == 19), 1u);
    struct deluge_message advert = {.kind = DELUGE_WIDE, .source = 4, .order = {.number = 5, .image = 6, .version = 7}};
    advert.entries[5] = (struct deluge_entry){.version = 7, .pages = 3, .have = 2, .crc = 0xecca};
    MUST(deluge_frame_write(&advert, frame, sizeof frame, &count));
    IS(deluge_frame_read(frame, count, false, &back), DELUGE_KIND);
    MUST(deluge_frame_read(frame, count, true, &back));
    IS((uint32_t)(back.entries[5].crc == 0xecca && back.entries[5].have == 2 && back.order.image == 6 && count == 62), 1u);
    advert.kind = DELUGE_ADVERT;
    advert.order.image = 3;
    advert.entries[0] = advert.entries[5];
    MUST(deluge_frame_write(&advert, frame, sizeof frame, &count));
    MUST(deluge_frame_read(frame, count, false, &back));
    IS((uint32_t)(back.entries[0].crc == 0xecca && back.entries[5].crc == 0 && back.order.version == 7 && count == 38), 1u);
    return 0;
}

/* A timer that is looked at each millisecond. */
static int timer(void)
{
    struct deluge_timer timer;
    uint32_t act = 0;
    IS(deluge_timer_start(&timer, UINT64_C(1) << 62, 0), DELUGE_RANGE);
    MUST(deluge_timer_start(&timer, 0, 0));
    for (uint64_t now = 0; now < 10000; now++) {
        if (now == 1600)
            MUST(deluge_timer_same(&timer));
        if (now == 6000)
            MUST(deluge_timer_other(&timer, now, 0));
        MUST(deluge_timer_tick(&timer, now, 0, &act));
        static const char *const names[] = {NULL, "send", "suppressed", "expired"};
        if (act != DELUGE_NOTHING)
            printf("%u %s\n", (unsigned)now, names[act]);
    }
    timer.interval = 0;
    IS(deluge_timer_tick(&timer, 10000, 0, &act), DELUGE_RANGE);
    return 0;
}

int main(int count, char **words)
{
    IS(deluge_crc16(0, (const uint8_t *)"123456789", 9), 0x31c3u);
    IS(deluge_crc16(deluge_crc16(0, (const uint8_t *)"1234", 4), (const uint8_t *)"56789", 5), 0x31c3u);
    if (messages() != 0)
        return 1;
    return count == 2 && strcmp(words[1], "timer") == 0 ? timer() : codec();
}

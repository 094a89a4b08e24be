/* What a firmware in C calls of deluge: docs/C.md.
 *
 * Each call is total: an invalid argument gives an answer, and DELUGE_DONE is 0. A pointer is never null, also where its count
 * is 0. What a call writes to is lent to that call alone, and overlaps nothing else that the call is handed. The library keeps
 * nothing between calls, allocates nothing, and may be called by several threads at once.
 */
#ifndef DELUGE_H
#define DELUGE_H

#include <stdbool.h>
#include <stddef.h>
#include <stdint.h>

#define DELUGE_FRAME_BYTES 64
#define DELUGE_LINE_BYTES 129
#define DELUGE_FLAG 0x7e
#define DELUGE_PACKET_BYTES 23
#define DELUGE_PACKETS 48
#define DELUGE_PAGE_BYTES 1104
#define DELUGE_DIGEST_BYTES 32
#define DELUGE_NAME_BYTES 16

enum deluge_answer {
    DELUGE_DONE = 0,
    DELUGE_SHORT = 1,       /* fewer bytes than a frame has */
    DELUGE_KIND = 2,        /* no such kind */
    DELUGE_LENGTH = 3,      /* a length that it may not have */
    DELUGE_CHECK = 4,       /* the CRC differs */
    DELUGE_RANGE = 5,       /* a field is out of its range */
    DELUGE_ROOM = 6,        /* the caller's buffer is too small */
    DELUGE_BROKEN = 7,      /* an escape stands before another byte than it may */
    DELUGE_LONG = 8,        /* more bytes than a frame has */
    DELUGE_FLAG_WITHIN = 9, /* a flag stands within the piece */
    DELUGE_TAG = 10,        /* the page does not begin as a descriptor */
    DELUGE_NO_VOLUME = 11,  /* the bytes of the chip are not a volume */
    DELUGE_NO_IMAGE = 12,   /* there is no image to start */
    DELUGE_RESERVED = 13,   /* image 0 is golden, which is written by formatting alone */
    DELUGE_STALE = 14,      /* this version or a larger one is kept */
    DELUGE_WORN = 15,       /* too few commits are left */
    DELUGE_EMPTY = 16,      /* the image has no byte */
    DELUGE_TOO_LARGE = 17,  /* it has more than 70,656 */
    DELUGE_TAKEN = 18,      /* this version is kept with another content */
    DELUGE_OLD_ORDER = 19,  /* the kept order has this number or a larger one */
    DELUGE_PUT = 20,        /* the packet was put before */
    DELUGE_NOT_KEPT = 21,   /* nothing, or another version, is kept of the image */
    DELUGE_NOT_NEXT = 22,   /* another page is the next one, or all are complete */
    DELUGE_UNFIT = 23       /* page 0 is not the descriptor of the image */
};

/* ---- checksums */

/* The CRC of bytes whose CRC is `before`, and of these after them. The CRC of no bytes is 0. */
uint16_t deluge_crc16(uint16_t before, const uint8_t *bytes, size_t count);

/* ---- frames */

enum deluge_kind { DELUGE_ADVERT = 1, DELUGE_REQUEST = 2, DELUGE_PACKET = 3, DELUGE_WIDE = 4 };

/* What an advert says of an image. All is 0 where nothing is kept. */
struct deluge_entry {
    uint32_t version;
    uint8_t pages, have;
    uint16_t crc;
};

/* An order. All is 0 where there is none. */
struct deluge_order {
    uint32_t number, version;
    uint8_t image;
};

/* Fields that a kind does not have are 0 where they are read, and not looked at where they are written. */
struct deluge_message {
    uint8_t kind, image, page, packet;
    uint16_t source, to;
    uint32_t version;
    uint8_t want[6]; /* packet n by bit 7 - n % 8 of byte n / 8 */
    uint8_t bytes[DELUGE_PACKET_BYTES];
    struct deluge_entry entries[6];
    struct deluge_order order;
};

/* SHORT, KIND, LENGTH, CHECK or RANGE, the first that applies: `message` is unchanged. A narrow reader knows images 1 to 3. */
uint32_t deluge_frame_read(const uint8_t *frame, size_t count, bool wide, struct deluge_message *message);

/* KIND, RANGE or ROOM: nothing is written. At most 64 bytes. */
uint32_t deluge_frame_write(const struct deluge_message *message, uint8_t *frame, size_t room, size_t *count);

/* ---- the serial line */

/* A frame as it is on the line, with the flag after it: at most 129 bytes. LENGTH or ROOM: nothing is written. */
uint32_t deluge_stuff(const uint8_t *frame, size_t count, uint8_t *line, size_t room, size_t *written);

/* The frame for which a piece stands, the bytes between two flags: at most 64 bytes. SHORT for an empty piece, BROKEN, LONG,
 * FLAG_WITHIN or ROOM: nothing is written. */
uint32_t deluge_unstuff(const uint8_t *piece, size_t count, uint8_t *frame, size_t room, size_t *written);

/* ---- the timer */

enum deluge_act { DELUGE_NOTHING = 0, DELUGE_SEND = 1, DELUGE_QUIET = 2, DELUGE_EXPIRED = 3 };

/* A timer, which is the caller's. Times are milliseconds below 2^62, and a word is a random number. */
struct deluge_timer {
    uint64_t begin;
    uint32_t interval, fires_after;
    uint16_t heard;
    bool fired;
};

/* RANGE, where the time is 2^62 or later, or the fields are not those of a timer: nothing changes. */
uint32_t deluge_timer_start(struct deluge_timer *timer, uint64_t now, uint32_t word);
uint32_t deluge_timer_same(struct deluge_timer *timer);
uint32_t deluge_timer_other(struct deluge_timer *timer, uint64_t now, uint32_t word);
uint32_t deluge_timer_tick(struct deluge_timer *timer, uint64_t now, uint32_t word, uint32_t *act);

/* ---- pages of 1,104 bytes */

struct deluge_descriptor {
    uint32_t version, length;
    uint8_t image, pages;
    uint8_t name[DELUGE_NAME_BYTES]; /* filled up with 0 */
};

/* Page 0 as a descriptor. LENGTH, TAG or RANGE: `descriptor` is unchanged. */
uint32_t deluge_descriptor_read(const uint8_t *page, size_t count, struct deluge_descriptor *descriptor);

/* Whether a data page, 1 to 64, has the CRC that page 0 keeps of it: else CHECK. RANGE, LENGTH. */
uint32_t deluge_page_check(const uint8_t *first, size_t first_count, const uint8_t *page, size_t count, uint8_t number);

/* The SHA-256 digest of a page, 32 bytes. The page before it names it by that digest in its last 32 bytes. LENGTH: nothing is
 * written. */
uint32_t deluge_page_digest(const uint8_t *page, size_t count, uint8_t *digest, size_t digest_count);

/* ---- plans: acts of the store and the start, over a chip that can be read in place */

/* A chip of 530 sectors of 2,048 bytes, all of it mapped, so that `chip` points to its bytes. A chip that cannot be read so is
 * not supported. */
#define DELUGE_CHIP_BYTES 1085440
#define DELUGE_SECTOR_BYTES 2048

enum deluge_command_kind { DELUGE_ERASE = 1, DELUGE_PROGRAM = 2, DELUGE_COPY = 3 };

/* One operation of the chip, for the caller's driver. An erase sets the `count` bytes from `at` on, a sector, to 0xFF. A program
 * makes old AND new of `count` bytes from `at` on: its bytes stand from `from` on in the bytes beside the list. A copy does the
 * same with the bytes of the chip itself, from `from` on. */
struct deluge_command {
    uint32_t kind, at, from, count;
};

/* The most commands of a start, of 65 pages, and the most bytes that it programs. */
#define DELUGE_START_COMMANDS 593
#define DELUGE_START_BYTES 193

/* Each call mounts the chip and plans one act. DONE: the first `planned` commands are its operations, in their order. Whoever
 * carries them out, and stops anywhere, has a chip that a stop of the act may leave: the next call goes on from there.
 * ROOM: the list, or the bytes beside it, hold as many of the operations as fit.
 * LENGTH, RANGE, NO_VOLUME: nothing is planned. */

enum deluge_cause { DELUGE_POWER = 0, DELUGE_ORDER_WAITS = 1 };

struct deluge_started {
    uint32_t version, length;
    uint16_t crc;
    uint8_t image, pages;
};

/* Plans a start: after its commands program memory holds `pages` pages from sector 3 on, of which the first is the descriptor.
 * NO_IMAGE has commands too, which count the start. */
uint32_t deluge_plan_start(const uint8_t *chip, size_t chip_count, uint32_t cause, struct deluge_command *commands, size_t room,
    uint8_t *bytes, size_t bytes_room, size_t *planned, struct deluge_started *started);

/* What is known of an image before any of its pages, as an advert gives it. */
struct deluge_profile {
    uint32_t version;
    uint16_t crc; /* of page 0 */
    uint8_t image, pages;
};

/* Plans that the slot of an image is taken: at most 8 commands and 139 bytes. RESERVED, STALE or WORN: nothing is planned. */
uint32_t deluge_plan_take(const uint8_t *chip, size_t chip_count, const struct deluge_profile *profile,
    struct deluge_command *commands, size_t room, uint8_t *bytes, size_t bytes_room, size_t *planned);

/* Plans that an order is kept: at most 4 commands and 65 bytes. RANGE, OLD_ORDER or WORN: nothing is planned. */
uint32_t deluge_plan_order(const uint8_t *chip, size_t chip_count, const struct deluge_order *order, struct deluge_command *commands,
    size_t room, uint8_t *bytes, size_t bytes_room, size_t *planned);

/* A packet of the next page of an image, and which packets of the page were put before, by bits as in `want`. */
struct deluge_packet {
    uint32_t version;
    uint8_t image, page, packet, got[6], bytes[DELUGE_PACKET_BYTES];
};

/* Plans that a packet is put: 1 command and 23 bytes, and an erase before it where none was put before. 19 bytes of the chip are
 * read. RANGE, PUT, NOT_KEPT or NOT_NEXT: nothing is planned. */
uint32_t deluge_plan_packet(const uint8_t *chip, size_t chip_count, const struct deluge_packet *packet,
    struct deluge_command *commands, size_t room, uint8_t *bytes, size_t bytes_room, size_t *planned);

/* Plans that the next page of an image is made complete, as it stands there: 1 command and 1 byte. CHECK if its CRC differs,
 * UNFIT, RANGE, NOT_KEPT or NOT_NEXT: nothing is planned. */
uint32_t deluge_plan_seal(const uint8_t *chip, size_t chip_count, uint8_t image, uint32_t version, uint8_t page,
    struct deluge_command *commands, size_t room, uint8_t *bytes, size_t bytes_room, size_t *planned);

/* Plans that an image is kept whole: at most 3,258 commands and 71,964 bytes. With less room the list is a prefix, from which a
 * next call continues if a page has room: 50 commands and 1,105 bytes. */
uint32_t deluge_plan_inject(const uint8_t *chip, size_t chip_count, uint8_t image, uint32_t version, const uint8_t *name,
    size_t name_count, const uint8_t *content, size_t content_count, struct deluge_command *commands, size_t room, uint8_t *bytes,
    size_t bytes_room, size_t *planned);

/* What a chip keeps of an image: the first `done` of its pages are complete. */
struct deluge_kept {
    uint32_t version;
    uint16_t crc; /* of page 0 */
    uint8_t pages, done;
};

/* LENGTH, RANGE, NO_VOLUME or NOT_KEPT: `kept` is unchanged. */
uint32_t deluge_kept(const uint8_t *chip, size_t chip_count, uint8_t image, struct deluge_kept *kept);

#endif

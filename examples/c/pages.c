/* The pages of an image that `deluge` injected, read in place from its chip: pages CHIP IMAGE. Writes what the descriptor says, and
 * the digest of each data page. */
#include "deluge.h"
#include <stdio.h>
#include <stdlib.h>

enum { CHIP_BYTES = 1085440, SECTOR = 2048, FIRST_SLOT = 68, SLOT_SECTORS = 66 };

static uint8_t chip[CHIP_BYTES];

static const uint8_t *page_of(unsigned image, unsigned page)
{
    return chip + SECTOR * (FIRST_SLOT + SLOT_SECTORS * image + 1 + page);
}

int main(int count, char **words)
{
    FILE *file = count == 3 ? fopen(words[1], "rb") : NULL;
    if (file == NULL || fread(chip, 1, sizeof chip, file) != sizeof chip)
        return 2;
    fclose(file);
    unsigned image = (unsigned)atoi(words[2]);
    const uint8_t *first = page_of(image, 0);
    struct deluge_descriptor descriptor;
    uint32_t answer = deluge_descriptor_read(first, DELUGE_PAGE_BYTES, &descriptor);
    if (answer != DELUGE_DONE)
        return 3;
    printf("%u %u %u %u %.16s\n", descriptor.image, (unsigned)descriptor.version, descriptor.pages, (unsigned)descriptor.length,
        (const char *)descriptor.name);
    for (uint8_t page = 1; page < descriptor.pages; page++) {
        uint8_t digest[DELUGE_DIGEST_BYTES];
        if (deluge_page_check(first, DELUGE_PAGE_BYTES, page_of(image, page), DELUGE_PAGE_BYTES, page) != DELUGE_DONE)
            return 4;
        if (deluge_page_digest(page_of(image, page), DELUGE_PAGE_BYTES, digest, sizeof digest) != DELUGE_DONE)
            return 5;
        for (size_t i = 0; i < sizeof digest; i++)
            printf("%02x", digest[i]);
        printf("\n");
    }
    /* What is wrong is an answer. */
    if (deluge_descriptor_read(first, 1103, &descriptor) != DELUGE_LENGTH
        || deluge_descriptor_read(page_of(image, 1), DELUGE_PAGE_BYTES, &descriptor) != DELUGE_TAG
        || deluge_page_check(first, DELUGE_PAGE_BYTES, first, DELUGE_PAGE_BYTES, 1) != DELUGE_CHECK
        || deluge_page_check(first, DELUGE_PAGE_BYTES, first, DELUGE_PAGE_BYTES, 65) != DELUGE_RANGE)
        return 6;
    return 0;
}

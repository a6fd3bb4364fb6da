/* Flags say that 300 bytes were paid in epoch 7. The document grows by 50 bytes in epoch 7, and is then shortened by 100. This prints
 * which epochs those 100 bytes are refunded from, and the bytes of the flags afterwards.
 *
 *     cc -I PREFIX/include example.c PREFIX/lib/libpetasunok.a -o example */
#include <petasunok.h>
#include <stdio.h>

#define ROOM 8

/* Flags with the tables that their records stand in. */
typedef struct {
    petasunok_head head;
    uint16_t epochs[ROOM];
    uint32_t counts[ROOM];
} flags;

/* Whether a call was refused; if so, says with which number. */
static int refused(const char *what, uint32_t refusal) {
    if (refusal != 0) fprintf(stderr, "example: %s was refused with %u\n", what, refusal);
    return refusal != 0;
}

int main(void) {
    const uint8_t bytes[] = {0x01, 0x00, 0x05, 0x00, 0x07, 0xAC, 0x02};
    const petasunok_id nobody = {{0}};
    const petasunok_head at_7 = petasunok_new_single_epoch(7, 0, nobody), at_9 = petasunok_new_single_epoch(9, 0, nobody);
    flags read, grown, shortened;
    uint8_t ids[ROOM][32], out[64];
    uint16_t epochs[ROOM];
    uint32_t refunds[ROOM];

    petasunok_flags answer = petasunok_deserialize(bytes, sizeof bytes, read.epochs, ROOM, read.counts, ROOM);
    if (refused("reading", answer.refusal) || !answer.present) return 1;
    read.head = answer.head;

    answer = petasunok_combine_added_bytes(read.head, read.epochs, ROOM, read.counts, ROOM, at_7, NULL, 0, NULL, 0, 50,
                                           PETASUNOK_RAISE_ISSUE, grown.epochs, ROOM, grown.counts, ROOM);
    if (refused("adding", answer.refusal)) return 1;
    grown.head = answer.head;

    petasunok_value_split split =
        petasunok_split_value_removed_bytes(grown.head, grown.epochs, ROOM, grown.counts, ROOM, 100, ids, ROOM, epochs, ROOM, refunds, ROOM);
    if (refused("splitting", split.refusal)) return 1;
    for (size_t i = 0; i < split.removal.rows; i++) printf("refund epoch %u bytes %u\n", epochs[i], refunds[i]);

    answer = petasunok_combine_removed_bytes(grown.head, grown.epochs, ROOM, grown.counts, ROOM, at_9, NULL, 0, NULL, 0, split.removal,
                                             (const uint8_t(*)[32])ids, ROOM, epochs, ROOM, refunds, ROOM, PETASUNOK_RAISE_ISSUE,
                                             shortened.epochs, ROOM, shortened.counts, ROOM);
    if (refused("removing", answer.refusal)) return 1;
    shortened.head = answer.head;

    petasunok_count size = petasunok_serialize(shortened.head, shortened.epochs, ROOM, shortened.counts, ROOM, out, sizeof out);
    if (refused("writing", size.refusal)) return 1;
    printf("flags ");
    for (size_t i = 0; i < size.count; i++) printf("%02x", out[i]);
    printf("\n");
    return 0;
}

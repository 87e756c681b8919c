/* A reader's hold, in one process: what it looks up stays the same while a writer goes on. How processes share memory
 * and locks is shown by two_processes.c. Run by c/test. */
#include <inttypes.h>
#include <stdio.h>
#include <string.h>

#include "wal_coordination.h"

enum { CAPACITY = 4096, BLOCKS = 1, SLOTS = 2, MODE = WAL_LINUX_OFD };

/* The shared memory. In a device it lies in a mapped file. */
static struct wal_header header;
static uint64_t pages[BLOCKS * WAL_BLOCK_ENTRIES];
static uint64_t frames[BLOCKS * WAL_BLOCK_ENTRIES];
static uint16_t hash[BLOCKS * WAL_BLOCK_HASH_CELLS];
static uint64_t bitmap[(SLOTS + 63) / 64];
static uint64_t reader_frames[SLOTS];
static uint64_t reader_owners[SLOTS];

/* This process's own cells and registry, all 0 at first. */
static uint64_t local_readers[SLOTS];
static struct wal_shared_read_mark registry[SLOTS];

static void make_fresh(void) {
    memset(&header, 0, sizeof header);
    header.frame_index_blocks = BLOCKS;
    memset(hash, 0, sizeof hash);
    for (size_t slot = 0; slot < SLOTS; slot++) {
        bitmap[slot / 64] |= UINT64_C(1) << (slot % 64);
        reader_frames[slot] = WAL_UNUSED;
        reader_owners[slot] = 0;
    }
}

static void record(uint64_t page, uint64_t frame) {
    struct wal_index_reply r = wal_record_frame(CAPACITY, BLOCKS, &header, pages, BLOCKS * WAL_BLOCK_ENTRIES, frames,
                                                BLOCKS * WAL_BLOCK_ENTRIES, hash, BLOCKS * WAL_BLOCK_HASH_CELLS, page,
                                                frame, 0);
    if (r.refusal != 0)
        printf("record page %" PRIu64 " frame %" PRIu64 ": refused %" PRIu32 ", %s\n", page, frame, r.refusal,
               wal_refusal_text(r.refusal));
    else
        printf("record page %" PRIu64 " frame %" PRIu64 ": %s\n", page, frame, r.answer == 1 ? "stored" : "dropped");
}

static void find(uint64_t page, uint64_t up_to) {
    struct wal_find_reply r = wal_find_frame(CAPACITY, BLOCKS, header, pages, BLOCKS * WAL_BLOCK_ENTRIES, frames,
                                             BLOCKS * WAL_BLOCK_ENTRIES, hash, BLOCKS * WAL_BLOCK_HASH_CELLS, page, 1,
                                             up_to, 0, 0);
    if (r.refusal != 0)
        printf("find page %" PRIu64 " up to %" PRIu64 ": refused %" PRIu32 "\n", page, up_to, r.refusal);
    else if (r.found == 1)
        printf("find page %" PRIu64 " up to %" PRIu64 ": frame %" PRIu64 ", %" PRIu32 " hash cells looked at\n", page, up_to,
               r.frame, r.cells);
    else
        printf("find page %" PRIu64 " up to %" PRIu64 ": none\n", page, up_to);
}

/* Whether a page was written from one frame to another. If it has several frames there, which one the reply has is not
 * decided: only that there is one is told. */
static void written(uint64_t page, uint64_t first, uint64_t last) {
    struct wal_frame_reply r = wal_frame_between(CAPACITY, BLOCKS, header, pages, BLOCKS * WAL_BLOCK_ENTRIES, frames,
                                                 BLOCKS * WAL_BLOCK_ENTRIES, page, first, last);
    printf("page %" PRIu64 " written from %" PRIu64 " to %" PRIu64 ": ", page, first, last);
    if (r.refusal != 0)
        printf("refused %" PRIu32 "\n", r.refusal);
    else
        printf("%s\n", r.found == 1 ? "yes" : "no");
}

/* A page's nearest frame, the lower of two that are as near. */
static void nearest(uint64_t page, uint64_t to_frame) {
    struct wal_frame_reply r = wal_nearest_frame(CAPACITY, BLOCKS, header, pages, BLOCKS * WAL_BLOCK_ENTRIES, frames,
                                                 BLOCKS * WAL_BLOCK_ENTRIES, page, to_frame);
    printf("page %" PRIu64 " nearest to %" PRIu64 ": ", page, to_frame);
    if (r.refusal != 0)
        printf("refused %" PRIu32 "\n", r.refusal);
    else if (r.found == 1)
        printf("frame %" PRIu64 "\n", r.frame);
    else
        printf("none\n");
}

static void list(uint64_t up_to) {
    uint64_t out_pages[8], out_frames[8];
    struct wal_list_reply r = wal_iter_latest_frames(CAPACITY, BLOCKS, header, pages, BLOCKS * WAL_BLOCK_ENTRIES,
                                                     frames, BLOCKS * WAL_BLOCK_ENTRIES, hash,
                                                     BLOCKS * WAL_BLOCK_HASH_CELLS, 1, up_to, out_pages, 8, out_frames,
                                                     8);
    if (r.refusal != 0) {
        printf("list up to %" PRIu64 ": refused %" PRIu32 "\n", up_to, r.refusal);
        return;
    }
    printf("list up to %" PRIu64 ":", up_to);
    for (uint64_t i = 0; i < r.count; i++)
        printf(" %" PRIu64 ":%" PRIu64, out_pages[i], out_frames[i]);
    printf("\n");
}

/* No other process shares this memory: every lock would be granted. A slot held here is not asked: it is busy. */
static uint8_t card[SLOTS];

static void fill_card(void) {
    for (size_t slot = 0; slot < SLOTS; slot++)
        card[slot] = local_readers[slot] == 0 ? WAL_GRANTED : WAL_BUSY;
}

static void limit(void) {
    fill_card();
    struct wal_limit_reply r =
        wal_copy_back_limit(SLOTS, MODE, header.max_frame, header.nbackfills, bitmap, 1, reader_frames, SLOTS,
                            reader_owners, SLOTS, local_readers, SLOTS, card, SLOTS);
    if (r.refusal != 0)
        printf("copy-back limit: refused %" PRIu32 "\n", r.refusal);
    else
        printf("copy-back limit: %" PRIu64 "\n", r.limit);
}

int main(void) {
    uint64_t owner = wal_owner_new(7, 1);
    make_fresh();

    record(7, 1);
    record(8199, 2);
    wal_publish_commit(&header, 2, 0, 0, 1);

    fill_card();
    struct wal_reader_reply reader = wal_register_reader_for_snapshot(
        SLOTS, MODE, bitmap, 1, reader_frames, SLOTS, reader_owners, SLOTS, local_readers, SLOTS, registry, SLOTS, card,
        SLOTS, owner, header.max_frame);
    if (reader.refusal != 0 || reader.taken != 1) {
        printf("register: refused %" PRIu32 ", or no slot\n", reader.refusal);
        return 1;
    }
    printf("register at %" PRIu64 ": slot %" PRIu64 "\n", reader.mark, reader.slot);

    record(7, 3);
    record(7, 3);
    wal_publish_commit(&header, 3, 0, 0, 2);
    find(7, reader.mark);
    list(reader.mark);
    written(7, 2, reader.mark);
    limit();

    uint32_t refusal = wal_unregister_reader_for_snapshot(SLOTS, MODE, bitmap, 1, reader_frames, SLOTS, reader_owners,
                                                          SLOTS, local_readers, SLOTS, registry, SLOTS, reader.mark,
                                                          reader.slot, reader.owner);
    printf("release: %" PRIu32 "\n", refusal);
    find(7, header.max_frame);
    written(7, 2, header.max_frame);
    nearest(7, 2);
    limit();
    return 0;
}

/* Calls every function of the header, with numbers that are all different, so that each parameter and each field of an
 * answer decides something, and compares every cell that a call could have changed. Each limit is tried from both
 * sides, each part is lent one cell too short, and each refusal is met. Prints what differs. Run by c/test. */
#include <inttypes.h>
#include <stdio.h>
#include <string.h>

#include "wal_coordination.h"

enum {
    ENTRIES = WAL_MAX_BLOCKS * WAL_BLOCK_ENTRIES,
    HASH = WAL_MAX_BLOCKS * WAL_BLOCK_HASH_CELLS,
    SLOTS = WAL_MAX_SLOTS
};

/* A number that needs its 64 bits: cut to its low or its high half it is another one. */
#define B(x) (UINT64_C(0x100000001) * (x) + 1)

/* All cells that calls are lent. */
struct world {
    struct wal_header header;
    uint64_t pages[ENTRIES], frames[ENTRIES];
    uint16_t hash[HASH];
    uint64_t bitmap[SLOTS / 64], reader_frames[SLOTS], reader_owners[SLOTS];
    uint64_t local_readers[SLOTS];
    struct wal_shared_read_mark registry[SLOTS];
    uint64_t out_pages[8], out_frames[8];
};

/* The memory, and what it is to be after the next call. */
static struct world w, wanted;

static int differences;

static void same(int line, const char *what, uint64_t found, uint64_t expected) {
    if (found == expected)
        return;
    differences++;
    printf("line %d: %s is %" PRIu64 " and should be %" PRIu64 "\n", line, what, found, expected);
}

#define SAME(found, expected) same(__LINE__, #found, found, expected)

/* Every cell of w is as wanted. Structs are compared by field: bytes between fields may hold anything. */
static void same_world(int line) {
#define FIELD(name) same(line, "header." #name, w.header.name, wanted.header.name)
    FIELD(frame_index_blocks);
    FIELD(frame_index_len);
    FIELD(frame_index_overflowed);
    FIELD(max_frame);
    FIELD(nbackfills);
    FIELD(transaction_count);
    FIELD(visibility_generation);
    FIELD(checkpoint_seq);
    FIELD(checkpoint_epoch);
    FIELD(checksum_1);
    FIELD(checksum_2);
    FIELD(writer_owner);
    FIELD(checkpoint_owner);
    for (size_t i = 0; i < SLOTS; i++) {
        same(line, "registry: mark", w.registry[i].mark, wanted.registry[i].mark);
        same(line, "registry: slot", w.registry[i].slot, wanted.registry[i].slot);
        same(line, "registry: owner", w.registry[i].owner, wanted.registry[i].owner);
        same(line, "registry: holders", w.registry[i].holders, wanted.registry[i].holders);
    }
#define CELLS(name)                                                         \
    for (size_t i = 0; i < sizeof w.name / sizeof *w.name; i++)             \
        same(line, #name, w.name[i], wanted.name[i])
    CELLS(pages);
    CELLS(frames);
    CELLS(hash);
    CELLS(bitmap);
    CELLS(reader_frames);
    CELLS(reader_owners);
    CELLS(local_readers);
    CELLS(out_pages);
    CELLS(out_frames);
}

#define SAME_WORLD() same_world(__LINE__)

/* --- The header ------------------------------------------------------------------------------------------------- */

static void distinct_header(void) {
    w.header = (struct wal_header){
        .frame_index_blocks = 1,
        .frame_index_len = 2,
        .frame_index_overflowed = 3,
        .max_frame = B(104),
        .nbackfills = B(105),
        .transaction_count = B(106),
        .visibility_generation = B(107),
        .checkpoint_seq = 108,
        .checkpoint_epoch = 109,
        .checksum_1 = 110000,
        .checksum_2 = 111000,
        .writer_owner = B(112),
        .checkpoint_owner = B(113),
    };
}

static void owners(void) {
    SAME(wal_owner_new(7, 9), UINT64_C(7) << 32 | 9);
    SAME(wal_owner_pid(UINT64_C(7) << 32 | 9), 7);
    SAME(wal_owner_instance_id(UINT64_C(7) << 32 | 9), 9);
}

static void publishes(void) {
    distinct_header();
    wanted = w;
    wanted.header.max_frame = B(204);
    wanted.header.checksum_1 = 210000;
    wanted.header.checksum_2 = 211000;
    wanted.header.transaction_count = B(206);
    wanted.header.visibility_generation = B(107) + 1;
    wal_publish_commit(&w.header, B(204), 210000, 211000, B(206));
    SAME_WORLD();

    /* A lower frame: the frame and the checksums stay. */
    wanted.header.transaction_count = B(207);
    wanted.header.visibility_generation = B(107) + 2;
    wal_publish_commit(&w.header, B(203), 310000, 311000, B(207));
    SAME_WORLD();

    /* The same frame, a lower count: the checksums are stored and the count stays. */
    wanted.header.checksum_1 = 410000;
    wanted.header.checksum_2 = 411000;
    wanted.header.visibility_generation = B(107) + 3;
    wal_publish_commit(&w.header, B(204), 410000, 411000, B(205));
    SAME_WORLD();

    wanted.header.nbackfills = B(5);
    wal_publish_backfill(&w.header, B(5));
    SAME_WORLD();

    wanted.header.checkpoint_seq = 109;
    SAME(wal_bump_checkpoint_seq(&w.header), 109);
    SAME_WORLD();
    wanted.header.checkpoint_epoch = 110;
    SAME(wal_bump_checkpoint_epoch(&w.header), 109);
    SAME_WORLD();

    w.header.checkpoint_seq = w.header.checkpoint_epoch = UINT32_MAX;
    wanted.header.checkpoint_seq = wanted.header.checkpoint_epoch = 0;
    SAME(wal_bump_checkpoint_seq(&w.header), 0);
    SAME(wal_bump_checkpoint_epoch(&w.header), UINT32_MAX);
    SAME_WORLD();
}

static void same_lock_reply(int line, struct wal_lock_reply r, uint32_t refusal, uint32_t answer,
                            uint64_t local_owner) {
    same(line, "refusal", r.refusal, refusal);
    same(line, "answer", r.answer, answer);
    same(line, "local_owner", r.local_owner, local_owner);
    same_world(line);
}

#define SAME_LOCK(reply, refusal, answer, local_owner) same_lock_reply(__LINE__, reply, refusal, answer, local_owner)

/* The same for both locks. cell is the lock's owner in wanted. */
static void lock(struct wal_lock_reply (*acquire)(struct wal_header *, uint64_t, uint64_t, uint8_t),
                 struct wal_lock_reply (*release)(uint32_t, struct wal_header *, uint64_t, uint64_t), uint64_t *cell) {
    struct wal_header *h = &w.header;
    distinct_header();
    wanted = w;
    SAME_LOCK(acquire(h, 0, B(31), WAL_BUSY), 0, 0, 0);
    SAME_LOCK(acquire(h, 0, B(31), WAL_LOCK_ERROR), 0, 0, 0);
    SAME_LOCK(acquire(h, B(30), B(31), WAL_GRANTED), 0, 0, B(30));
    SAME_LOCK(acquire(h, B(30), 0, WAL_GRANTED), WAL_REFUSED_NO_OWNER, 0, B(30));
    SAME_LOCK(acquire(h, B(30), B(31), WAL_LOCK_ERROR + 1), WAL_REFUSED_CARD, 0, B(30));
    *cell = B(31);
    SAME_LOCK(acquire(h, 0, B(31), WAL_GRANTED), 0, 1, B(31));

    SAME_LOCK(release(WAL_PROCESS_SCOPED_FCNTL, h, B(31), B(32)), WAL_REFUSED_OTHER_OWNER, 0, B(31));
    SAME_LOCK(release(WAL_PROCESS_SCOPED_FCNTL + 1, h, B(31), B(31)), WAL_REFUSED_SETTINGS, 0, B(31));
    SAME_LOCK(release(WAL_LINUX_OFD, h, 0, B(31)), WAL_REFUSED_NOT_HELD, 0, 0);
    SAME_LOCK(release(WAL_LINUX_OFD, h, B(31), 0), WAL_REFUSED_NO_OWNER, 0, B(31));
    *cell = 0;
    SAME_LOCK(release(WAL_LINUX_OFD, h, B(31), B(32)), 0, 1, 0);
    SAME_LOCK(release(WAL_PROCESS_SCOPED_FCNTL, h, B(31), B(31)), 0, 1, 0);
}

/* --- The frame index -------------------------------------------------------------------------------------------- */

/* Settings and lengths that calls on the index are given. */
struct index_given {
    uint32_t capacity, max_blocks;
    size_t pages, frames, hash;
};

static const struct index_given TWO_BLOCKS = {4097, 2, 2 * WAL_BLOCK_ENTRIES, 2 * WAL_BLOCK_ENTRIES,
                                              2 * WAL_BLOCK_HASH_CELLS};

#define ENTRIES_OF(g) w.pages, (g).pages, w.frames, (g).frames
#define INDEX_OF(g) ENTRIES_OF(g), w.hash, (g).hash

static struct wal_index_reply record(struct index_given g, uint64_t page, uint64_t frame, uint32_t grow) {
    return wal_record_frame(g.capacity, g.max_blocks, &w.header, INDEX_OF(g), page, frame, grow);
}

static struct wal_index_reply rollback(struct index_given g, uint64_t max_frame) {
    return wal_rollback_frames(g.capacity, g.max_blocks, &w.header, INDEX_OF(g), max_frame);
}

static struct wal_find_reply find(struct index_given g, uint64_t page, uint64_t min, uint64_t max, uint32_t has,
                                  uint64_t watermark) {
    return wal_find_frame(g.capacity, g.max_blocks, w.header, INDEX_OF(g), page, min, max, has, watermark);
}

static struct wal_frame_reply between(struct index_given g, uint64_t page, uint64_t min, uint64_t max) {
    return wal_frame_between(g.capacity, g.max_blocks, w.header, ENTRIES_OF(g), page, min, max);
}

static struct wal_frame_reply nearest(struct index_given g, uint64_t page, uint64_t to_frame) {
    return wal_nearest_frame(g.capacity, g.max_blocks, w.header, ENTRIES_OF(g), page, to_frame);
}

static struct wal_list_reply list(struct index_given g, uint64_t min, uint64_t max, size_t pages, size_t frames) {
    return wal_iter_latest_frames(g.capacity, g.max_blocks, w.header, INDEX_OF(g), min, max, w.out_pages, pages,
                                  w.out_frames, frames);
}

static void same_index_reply(int line, struct wal_index_reply r, uint32_t refusal, uint32_t answer) {
    same(line, "refusal", r.refusal, refusal);
    same(line, "answer", r.answer, answer);
    same_world(line);
}

#define SAME_INDEX(reply, refusal, answer) same_index_reply(__LINE__, reply, refusal, answer)

static void same_find_reply(int line, struct wal_find_reply r, uint32_t refusal, uint32_t found, uint64_t frame,
                            uint32_t cells) {
    same(line, "refusal", r.refusal, refusal);
    same(line, "found", r.found, found);
    same(line, "frame", r.frame, frame);
    same(line, "cells", r.cells, cells);
    same_world(line);
}

#define SAME_FIND(reply, refusal, found, frame, cells) same_find_reply(__LINE__, reply, refusal, found, frame, cells)

static void same_frame_reply(int line, struct wal_frame_reply r, uint32_t refusal, uint32_t found, uint64_t frame) {
    same(line, "refusal", r.refusal, refusal);
    same(line, "found", r.found, found);
    same(line, "frame", r.frame, frame);
    same_world(line);
}

#define SAME_FRAME(reply, frame) same_frame_reply(__LINE__, reply, 0, 1, frame)
#define NO_FRAME(reply) same_frame_reply(__LINE__, reply, 0, 0, 0)

/* Which of several frames is given is not decided: it is one of these. Any other is held against the last of them. */
static void one_of(int line, struct wal_frame_reply r, size_t count, const uint64_t *frames) {
    size_t i = 0;
    while (i < count - 1 && frames[i] != r.frame)
        i++;
    same_frame_reply(line, r, 0, 1, frames[i]);
}

#define ONE_OF(reply, ...)                                                                   \
    one_of(__LINE__, reply, sizeof(uint64_t[]){__VA_ARGS__} / sizeof(uint64_t), (uint64_t[]){__VA_ARGS__})

static void same_list_reply(int line, struct wal_list_reply r, uint32_t refusal, uint64_t count) {
    same(line, "refusal", r.refusal, refusal);
    same(line, "count", r.count, count);
    same_world(line);
}

#define SAME_LIST(reply, refusal, count) same_list_reply(__LINE__, reply, refusal, count)

/* An entry that a record is to leave. Pages 7, 8,199 and B(6) have the home 2,681. */
static void want_entry(uint32_t entry, uint64_t page, uint64_t frame, size_t hash_cell) {
    wanted.pages[entry] = page;
    wanted.frames[entry] = frame;
    wanted.hash[hash_cell] = (uint16_t)(entry % WAL_BLOCK_ENTRIES + 1);
    wanted.header.frame_index_len = entry + 1;
}

/* Pages 7, 8,199 and 7 in frames 1, 2 and 3, and cells that no call has written. */
static void three_records(void) {
    memset(&w, 0, sizeof w);
    w.hash[5] = 77;
    w.hash[WAL_BLOCK_HASH_CELLS + 5] = 78;
    w.pages[3] = 79;
    w.frames[3] = 80;
    wanted = w;

    /* No block is in use: only a growth makes room. The first record of a block clears its hash alone. */
    wanted.header.frame_index_overflowed = 1;
    SAME_INDEX(record(TWO_BLOCKS, 7, 1, 0), 0, 0);
    wanted.header.frame_index_overflowed = 0;
    wanted.header.frame_index_blocks = 1;
    wanted.hash[5] = 0;
    want_entry(0, 7, 1, 2681);
    SAME_INDEX(record(TWO_BLOCKS, 7, 1, 256), 0, 1);
    want_entry(1, 8199, 2, 2682);
    SAME_INDEX(record(TWO_BLOCKS, 8199, 2, 0), 0, 1);
    want_entry(2, 7, 3, 2683);
    SAME_INDEX(record(TWO_BLOCKS, 7, 3, 0), 0, 1);
}

static void records(void) {
    three_records();
    SAME_INDEX(record(TWO_BLOCKS, 9, 3, 0), WAL_REFUSED_FRAME_ORDER, 0);
    SAME_INDEX(rollback(TWO_BLOCKS, 3), 0, 3);
    wanted.header.frame_index_len = 2;
    wanted.hash[2683] = 0;
    SAME_INDEX(rollback(TWO_BLOCKS, 2), 0, 2);

    /* At its capacity the index drops. */
    struct index_given full = TWO_BLOCKS;
    full.capacity = 2;
    wanted.header.frame_index_overflowed = 1;
    SAME_INDEX(record(full, 9, 4, 1), 0, 0);

    /* No hash cell is empty. */
    for (size_t i = 0; i < WAL_BLOCK_HASH_CELLS; i++)
        w.hash[i] = wanted.hash[i] = 1;
    SAME_INDEX(record(TWO_BLOCKS, 9, 4, 0), WAL_REFUSED_HASH_FULL, 0);

    /* Entry 4,096 is the first of block 1, and this capacity's last. */
    three_records();
    for (uint32_t entry = 3; entry < WAL_BLOCK_ENTRIES; entry++) {
        want_entry(entry, entry + 1, entry + 1, (entry + 1) * UINT32_C(383) % WAL_BLOCK_HASH_CELLS);
        struct wal_index_reply r = record(TWO_BLOCKS, entry + 1, entry + 1, 0);
        SAME(r.refusal, 0);
        SAME(r.answer, 1);
    }
    /* Which cells a chain takes is another test's: only how many are used is held here. */
    size_t used = 0;
    for (size_t i = 0; i < WAL_BLOCK_HASH_CELLS; i++)
        used += w.hash[i] != 0;
    SAME(used, WAL_BLOCK_ENTRIES);
    memcpy(wanted.hash, w.hash, sizeof w.hash);
    SAME_WORLD();
    wanted.header.frame_index_blocks = 2;
    wanted.hash[WAL_BLOCK_HASH_CELLS + 5] = 0;
    want_entry(WAL_BLOCK_ENTRIES, B(6), B(5000), WAL_BLOCK_HASH_CELLS + 2681);
    SAME_INDEX(record(TWO_BLOCKS, B(6), B(5000), 1), 0, 1);
    wanted.header.frame_index_overflowed = 1;
    SAME_INDEX(record(TWO_BLOCKS, 7, B(5001), 1), 0, 0);
    SAME_INDEX(rollback(TWO_BLOCKS, B(5000)), 0, WAL_BLOCK_ENTRIES + 1);

    /* Bounds that need their 64 bits. */
    SAME_FIND(find(TWO_BLOCKS, B(6), B(5000), B(5000), 0, 0), 0, 1, B(5000), 2);
    /* Two cells of block 1, and of block 0 the three records, the seventh entry and an empty cell. */
    SAME_FIND(find(TWO_BLOCKS, 7, B(1), B(5000), 0, 0), 0, 0, 0, 2 + 5);
    SAME_FIND(find(TWO_BLOCKS, B(6), 1, 3, 256, B(5000)), 0, 1, B(5000), 2);
    wanted.out_pages[0] = B(6);
    wanted.out_frames[0] = B(5000);
    SAME_LIST(list(TWO_BLOCKS, B(4999), B(5000), 1, 1), 0, 1);
    wanted.header.frame_index_len = WAL_BLOCK_ENTRIES;
    SAME_INDEX(rollback(TWO_BLOCKS, B(4999)), 0, WAL_BLOCK_ENTRIES);
}

static void lookups(void) {
    three_records();
    SAME_FIND(find(TWO_BLOCKS, 7, 1, 3, 0, 2), 0, 1, 3, 4);
    SAME_FIND(find(TWO_BLOCKS, 7, 1, 2, 0, 3), 0, 1, 1, 3);
    SAME_FIND(find(TWO_BLOCKS, 8199, 1, 3, 0, 0), 0, 1, 2, 4);
    SAME_FIND(find(TWO_BLOCKS, 7, 2, 2, 0, 0), 0, 0, 0, 3);
    SAME_FIND(find(TWO_BLOCKS, 7, 2, 3, 1, 2), 0, 1, 1, 3);
    SAME_FIND(find(TWO_BLOCKS, 7, 2, 3, 1, 1), 0, 0, 0, 0);

    for (size_t i = 0; i < 8; i++) {
        w.out_pages[i] = wanted.out_pages[i] = 500 + i;
        w.out_frames[i] = wanted.out_frames[i] = 600 + i;
    }
    SAME_LIST(list(TWO_BLOCKS, 1, 3, 1, 2), WAL_REFUSED_SHORT_LIST, 0);
    SAME_LIST(list(TWO_BLOCKS, 1, 3, 2, 1), WAL_REFUSED_SHORT_LIST, 0);
    SAME_LIST(list(TWO_BLOCKS, 3, 2, 0, 0), 0, 0);
    wanted.out_pages[0] = 8199;
    wanted.out_frames[0] = 2;
    SAME_LIST(list(TWO_BLOCKS, 2, 2, 1, 1), 0, 1);
    wanted.out_pages[0] = 7;
    wanted.out_frames[0] = 3;
    wanted.out_pages[1] = 8199;
    wanted.out_frames[1] = 2;
    SAME_LIST(list(TWO_BLOCKS, 1, 3, 8, 7), 0, 2);
}

/* An index with one block in use and nothing in it. */
static void empty_index(void) {
    memset(&w, 0, sizeof w);
    w.header.frame_index_blocks = 1;
    wanted = w;
}

/* A record that need not be looked at: what a record leaves is another test's. */
static void recorded(int line, uint64_t page, uint64_t frame) {
    struct wal_index_reply r = record(TWO_BLOCKS, page, frame, 1);
    same(line, "record: refusal", r.refusal, 0);
    same(line, "record: answer", r.answer, 1);
}

#define RECORDED(page, frame)              \
    do {                                   \
        recorded(__LINE__, page, frame);   \
        wanted = w;                        \
    } while (0)

/* How many hash cells a lookup looks at. */
static void cells_looked_at(void) {
    empty_index();
    SAME_FIND(find(TWO_BLOCKS, 7, 1, 9, 0, 0), 0, 0, 0, 0); /* no block is visible */
    RECORDED(7, 1);
    SAME_FIND(find(TWO_BLOCKS, 8, 1, 9, 0, 0), 0, 0, 0, 1); /* the empty home */
    SAME_FIND(find(TWO_BLOCKS, 7, 1, 9, 0, 0), 0, 1, 1, 2); /* its cell and the empty one */
    SAME_FIND(find(TWO_BLOCKS, 7, 1, 0, 0, 0), 0, 0, 0, 0); /* the upper bound is below the lower one */
    SAME_FIND(find(TWO_BLOCKS, 7, 0, 0, 0, 0), 0, 0, 0, 0); /* no entry is visible */

    /* A cell that names a hidden entry counts and ends the probe: at the home, and behind a match. */
    RECORDED(9, 2);
    RECORDED(9, 3);
    SAME_FIND(find(TWO_BLOCKS, 9, 1, 9, 1, 1), 0, 0, 0, 1);
    SAME_FIND(find(TWO_BLOCKS, 9, 1, 9, 1, 2), 0, 1, 2, 2);
    SAME_FIND(find(TWO_BLOCKS, 9, 1, 9, 0, 0), 0, 1, 3, 3);

    /* Page 770 has the home 8,190: its third cell is the block's first. */
    for (uint64_t frame = 4; frame <= 7; frame++)
        RECORDED(770, frame);
    SAME_FIND(find(TWO_BLOCKS, 770, 1, 9, 0, 0), 0, 1, 7, 5);
    SAME_FIND(find(TWO_BLOCKS, 770, 1, 5, 0, 0), 0, 1, 5, 3);

    struct index_given short_hash = TWO_BLOCKS;
    short_hash.hash -= 1;
    SAME_FIND(find(short_hash, 9, 1, 9, 0, 0), WAL_REFUSED_SHORT_MEMORY, 0, 0, 0);

    /* A block of one page: its 4,096 cells from 2,681 on, and an empty one. */
    empty_index();
    for (uint64_t frame = 1; frame <= WAL_BLOCK_ENTRIES; frame++)
        recorded(__LINE__, 7, frame);
    wanted = w;
    SAME_FIND(find(TWO_BLOCKS, 7, 1, 9999, 0, 0), 0, 1, 4096, 4097);
    SAME_FIND(find(TWO_BLOCKS, 8199, 1, 9999, 0, 0), 0, 0, 0, 4097);
    SAME_FIND(find(TWO_BLOCKS, 7, 1, 4000, 0, 0), 0, 1, 4000, 4001);
    SAME_FIND(find(TWO_BLOCKS, 8, 1, 9999, 0, 0), 0, 0, 0, 4097 - 383); /* its home is the 384th of them */

    /* Block 1 is probed first. The block that answers is the last that counts, and a match below the lower bound
     * answers nothing. */
    RECORDED(8199, 4097);
    SAME_FIND(find(TWO_BLOCKS, 8199, 1, 9999, 0, 0), 0, 1, 4097, 2);
    SAME_FIND(find(TWO_BLOCKS, 7, 1, 9999, 0, 0), 0, 1, 4096, 2 + 4097);
    SAME_FIND(find(TWO_BLOCKS, 8, 1, 9999, 0, 0), 0, 0, 0, 1 + 4097 - 383);
    SAME_FIND(find(TWO_BLOCKS, 770, 1, 9999, 0, 0), 0, 0, 0, 1 + 1);
    SAME_FIND(find(TWO_BLOCKS, 3, 1, 9999, 0, 0), 0, 0, 0, 1 + 1);
    SAME_FIND(find(TWO_BLOCKS, 8199, 4098, 9999, 0, 0), 0, 0, 0, 2 + 4097);

    /* Damage: no cell of block 0 is empty, and each names a visible entry of page 7. */
    for (size_t cell = 0; cell < WAL_BLOCK_HASH_CELLS; cell++)
        w.hash[cell] = wanted.hash[cell] = 1;
    SAME_FIND(find(TWO_BLOCKS, 7, 1, 4096, 0, 0), 0, 1, 1, 8192);
    SAME_FIND(find(TWO_BLOCKS, 8, 1, 9999, 0, 0), 0, 0, 0, 1 + 8192);
}

static void frames_between(void) {
    three_records();
    /* Both ends are included. */
    SAME_FRAME(between(TWO_BLOCKS, 7, 1, 1), 1);
    SAME_FRAME(between(TWO_BLOCKS, 7, 3, 3), 3);
    SAME_FRAME(between(TWO_BLOCKS, 7, 0, 2), 1);
    SAME_FRAME(between(TWO_BLOCKS, 7, 2, UINT64_MAX), 3);
    SAME_FRAME(between(TWO_BLOCKS, 8199, 1, 3), 2);
    NO_FRAME(between(TWO_BLOCKS, 7, 2, 2));
    NO_FRAME(between(TWO_BLOCKS, 7, 4, UINT64_MAX));
    NO_FRAME(between(TWO_BLOCKS, 7, 0, 0));
    NO_FRAME(between(TWO_BLOCKS, 8, 0, UINT64_MAX));
    ONE_OF(between(TWO_BLOCKS, 7, 1, 3), 1, 3);

    /* Bounds in the wrong order. */
    NO_FRAME(between(TWO_BLOCKS, 7, 3, 1));
    NO_FRAME(between(TWO_BLOCKS, 8199, 3, 2));
    NO_FRAME(between(TWO_BLOCKS, 7, UINT64_MAX, 0));

    /* What is published does not matter, and what the length leaves out is not looked at: the entry of page 79. */
    w.header.max_frame = wanted.header.max_frame = 2;
    SAME_FRAME(between(TWO_BLOCKS, 7, 3, 3), 3);
    NO_FRAME(between(TWO_BLOCKS, 79, 0, UINT64_MAX));
    w.header.frame_index_len = wanted.header.frame_index_len = 2;
    NO_FRAME(between(TWO_BLOCKS, 7, 3, 3));
    w.header.frame_index_len = wanted.header.frame_index_len = 0;
    NO_FRAME(between(TWO_BLOCKS, 7, 0, UINT64_MAX));

    /* Damage: frames that do not rise. */
    three_records();
    w.frames[0] = wanted.frames[0] = 9;
    w.frames[2] = wanted.frames[2] = 4;
    SAME_FRAME(between(TWO_BLOCKS, 7, 9, 9), 9);
    SAME_FRAME(between(TWO_BLOCKS, 7, 3, 8), 4);
    NO_FRAME(between(TWO_BLOCKS, 7, 5, 8));
    ONE_OF(between(TWO_BLOCKS, 7, 4, 9), 4, 9);
}

static void nearest_frames(void) {
    three_records();
    SAME_FRAME(nearest(TWO_BLOCKS, 7, 0), 1);
    SAME_FRAME(nearest(TWO_BLOCKS, 7, 1), 1);
    SAME_FRAME(nearest(TWO_BLOCKS, 7, 2), 1); /* 3 is as near */
    SAME_FRAME(nearest(TWO_BLOCKS, 7, 3), 3);
    SAME_FRAME(nearest(TWO_BLOCKS, 7, UINT64_MAX), 3);
    SAME_FRAME(nearest(TWO_BLOCKS, 8199, 1), 2);
    SAME_FRAME(nearest(TWO_BLOCKS, 8199, 9), 2);
    NO_FRAME(nearest(TWO_BLOCKS, 8, 2));

    w.header.max_frame = wanted.header.max_frame = 2;
    SAME_FRAME(nearest(TWO_BLOCKS, 7, 9), 3);
    NO_FRAME(nearest(TWO_BLOCKS, 79, 80));
    w.header.frame_index_len = wanted.header.frame_index_len = 2;
    SAME_FRAME(nearest(TWO_BLOCKS, 7, 9), 1);
    w.header.frame_index_len = wanted.header.frame_index_len = 0;
    NO_FRAME(nearest(TWO_BLOCKS, 7, 2));

    /* Damage: frames that do not rise. Of two that are as near the lower one is the later entry. */
    three_records();
    w.frames[0] = wanted.frames[0] = 9;
    w.frames[2] = wanted.frames[2] = 5;
    SAME_FRAME(nearest(TWO_BLOCKS, 7, 7), 5);
    SAME_FRAME(nearest(TWO_BLOCKS, 7, 8), 9);
    SAME_FRAME(nearest(TWO_BLOCKS, 7, 6), 5);
}

/* Frames and pages that need their 64 bits, and a second block. */
static void searches_of_wide_numbers(void) {
    empty_index();
    RECORDED(7, 0);
    SAME_FRAME(between(TWO_BLOCKS, 7, 0, 0), 0);
    SAME_FRAME(nearest(TWO_BLOCKS, 7, UINT64_MAX), 0); /* no distance is greater */
    RECORDED(7, UINT64_MAX);
    SAME_FRAME(between(TWO_BLOCKS, 7, 0, UINT64_MAX - 1), 0);
    SAME_FRAME(between(TWO_BLOCKS, 7, 1, UINT64_MAX), UINT64_MAX);
    SAME_FRAME(between(TWO_BLOCKS, 7, UINT64_MAX, UINT64_MAX), UINT64_MAX);
    NO_FRAME(between(TWO_BLOCKS, 7, 1, UINT64_MAX - 1));
    ONE_OF(between(TWO_BLOCKS, 7, 0, UINT64_MAX), 0, UINT64_MAX);
    SAME_FRAME(nearest(TWO_BLOCKS, 7, 0), 0);
    SAME_FRAME(nearest(TWO_BLOCKS, 7, UINT64_MAX), UINT64_MAX);
    SAME_FRAME(nearest(TWO_BLOCKS, 7, UINT64_MAX / 2), 0);
    SAME_FRAME(nearest(TWO_BLOCKS, 7, UINT64_MAX / 2 + 1), UINT64_MAX);

    /* Page 7 is the low half of page B(6). */
    empty_index();
    RECORDED(B(6), B(10));
    for (uint64_t frame = 1; frame < WAL_BLOCK_ENTRIES; frame++)
        recorded(__LINE__, 7, B(10) + frame);
    RECORDED(B(6), B(20));
    SAME(w.header.frame_index_len, WAL_BLOCK_ENTRIES + 1);
    SAME_FRAME(between(TWO_BLOCKS, B(6), B(10), B(20) - 1), B(10));
    SAME_FRAME(between(TWO_BLOCKS, B(6), B(10) + 1, B(20)), B(20));
    NO_FRAME(between(TWO_BLOCKS, B(6), B(10) + 1, B(20) - 1));
    SAME_FRAME(nearest(TWO_BLOCKS, B(6), B(15)), B(10)); /* B(20) is as near */
    SAME_FRAME(nearest(TWO_BLOCKS, B(6), B(15) + 1), B(20));
    SAME_FRAME(nearest(TWO_BLOCKS, 7, 0), B(10) + 1);
    SAME_FRAME(nearest(TWO_BLOCKS, 7, B(10) + 2000), B(10) + 2000);
    SAME_FRAME(nearest(TWO_BLOCKS, 7, B(20)), B(10) + WAL_BLOCK_ENTRIES - 1);
}

/* The calls on the index with these settings and lengths. Those that are lent the hash are all refused so, or none is;
 * the searches over the entries, which are not lent it, may have another answer. */
static void index_refused(int line, struct index_given g, uint32_t refusal, uint32_t of_entries) {
    wanted = w;
    same_frame_reply(line, between(g, 7, 2, 3), of_entries, of_entries == 0, of_entries == 0 ? 3 : 0);
    same_frame_reply(line, nearest(g, 7, 9), of_entries, of_entries == 0, of_entries == 0 ? 3 : 0);
    same_find_reply(line, find(g, 7, 1, 3, 0, 0), refusal, refusal == 0, refusal == 0 ? 3 : 0,
                    refusal == 0 ? 4 : 0);
    struct wal_list_reply listed = list(g, 1, 3, 8, 8);
    same(line, "refusal", listed.refusal, refusal);
    same(line, "count", listed.count, refusal == 0 ? 2 : 0);
    if (refusal == 0) {
        memcpy(wanted.out_pages, w.out_pages, sizeof w.out_pages);
        memcpy(wanted.out_frames, w.out_frames, sizeof w.out_frames);
    }
    same_index_reply(line, rollback(g, 3), refusal, refusal == 0 ? 3 : 0);
    if (refusal != 0)
        same_index_reply(line, record(g, 9, 4, 0), refusal, 0);
    else
        same(line, "record: refusal", record(g, 9, 4, 0).refusal, 0);
}

#define INDEX_AND_ENTRIES_REFUSED(refusal, of_entries, ...)   \
    do {                                                      \
        three_records();                                      \
        struct index_given g = TWO_BLOCKS;                    \
        __VA_ARGS__;                                          \
        index_refused(__LINE__, g, refusal, of_entries);      \
    } while (0)

#define INDEX_REFUSED(refusal, ...) INDEX_AND_ENTRIES_REFUSED(refusal, refusal, __VA_ARGS__)

static void index_settings(void) {
    INDEX_REFUSED(0, g.pages += 1, g.frames += 2, g.hash += 3);
    INDEX_REFUSED(WAL_REFUSED_SETTINGS, g.capacity = 0);
    INDEX_REFUSED(WAL_REFUSED_SETTINGS, g.capacity = 2); /* three entries */
    INDEX_REFUSED(0, g.capacity = 3);
    INDEX_REFUSED(0, g.capacity = WAL_MAX_CAPACITY);
    INDEX_REFUSED(WAL_REFUSED_SETTINGS, g.capacity = WAL_MAX_CAPACITY + 1);
    INDEX_REFUSED(WAL_REFUSED_SETTINGS, g.max_blocks = 0);
    INDEX_REFUSED(0, g.max_blocks = WAL_MAX_BLOCKS, g.pages = g.frames = ENTRIES, g.hash = HASH);
    INDEX_REFUSED(WAL_REFUSED_SETTINGS, g.max_blocks = WAL_MAX_BLOCKS + 1);
    INDEX_REFUSED(WAL_REFUSED_SETTINGS, g.max_blocks += 65536);
    INDEX_REFUSED(WAL_REFUSED_SETTINGS, w.header.frame_index_blocks = 3);
    INDEX_REFUSED(WAL_REFUSED_SHORT_MEMORY, g.pages -= 1);
    INDEX_REFUSED(WAL_REFUSED_SHORT_MEMORY, g.frames -= 1);
    INDEX_AND_ENTRIES_REFUSED(WAL_REFUSED_SHORT_MEMORY, 0, g.hash -= 1);
}

/* --- Readers ---------------------------------------------------------------------------------------------------- */

/* What calls on readers are given: settings, lengths, lock answers, and the numbers of the call. */
struct given {
    size_t n;
    uint32_t mode;
    size_t bitmap, reader_frames, reader_owners, local_readers, registry, card_len;
    uint8_t card[SLOTS + 1];
    size_t slot;
    uint64_t owner, mark;
};

/* The numbers of any answer; those that a reply lacks are 0. */
struct answer {
    uint64_t refusal, yes, slot, owner, mark;
};

#define SLOTS_OF(g) w.bitmap, g->bitmap, w.reader_frames, g->reader_frames, w.reader_owners, g->reader_owners
#define OWN_OF(g) w.local_readers, g->local_readers
#define REGISTRY_OF(g) w.registry, g->registry
#define CARD_OF(g) g->card, g->card_len

static struct answer of_reader(struct wal_reader_reply r) {
    return (struct answer){r.refusal, r.taken, r.slot, r.owner, r.mark};
}

static struct answer of_release(uint32_t refusal) {
    return (struct answer){.refusal = refusal, .yes = refusal == 0};
}

static struct answer register_reader(const struct given *g) {
    return of_reader(wal_register_reader(g->n, g->mode, SLOTS_OF(g), OWN_OF(g), CARD_OF(g), g->owner, g->mark));
}

static struct answer update_reader(const struct given *g) {
    return of_reader(wal_update_reader(g->n, w.reader_frames, g->reader_frames, w.reader_owners, g->reader_owners,
                                       REGISTRY_OF(g), g->slot, g->owner, g->mark));
}

static struct answer unregister_reader(const struct given *g) {
    return of_release(wal_unregister_reader(g->n, g->mode, SLOTS_OF(g), OWN_OF(g), REGISTRY_OF(g), g->slot, g->owner));
}

static struct answer register_for_snapshot(const struct given *g) {
    return of_reader(wal_register_reader_for_snapshot(g->n, g->mode, SLOTS_OF(g), OWN_OF(g), REGISTRY_OF(g),
                                                      CARD_OF(g), g->owner, g->mark));
}

static struct answer register_db_file(const struct given *g) {
    return of_reader(
        wal_register_db_file_reader(g->n, g->mode, SLOTS_OF(g), OWN_OF(g), REGISTRY_OF(g), CARD_OF(g), g->owner));
}

static struct answer unregister_for_snapshot(const struct given *g) {
    return of_release(wal_unregister_reader_for_snapshot(g->n, g->mode, SLOTS_OF(g), OWN_OF(g), REGISTRY_OF(g),
                                                         g->mark, g->slot, g->owner));
}

static struct answer min_active(const struct given *g) {
    struct wal_floor_reply r = wal_min_active_reader_frame(g->n, g->mode, SLOTS_OF(g), OWN_OF(g), CARD_OF(g));
    return (struct answer){.refusal = r.refusal, .yes = r.found, .mark = r.mark};
}

static struct answer has_db_file(const struct given *g) {
    struct wal_db_file_reply r = wal_has_active_db_file_reader(g->n, g->mode, SLOTS_OF(g), OWN_OF(g), CARD_OF(g));
    return (struct answer){.refusal = r.refusal, .yes = r.active};
}

/* The published frame is given as the mark, the number of copied frames as the owner. */
static struct answer limit(const struct given *g) {
    struct wal_limit_reply r =
        wal_copy_back_limit(g->n, g->mode, g->mark, g->owner, SLOTS_OF(g), OWN_OF(g), CARD_OF(g));
    return (struct answer){.refusal = r.refusal, .mark = r.limit};
}

/* What a call takes besides slot frames and slot owners: each can be a reason to refuse it. */
enum { MODE = 1, BITMAP = 2, LOCAL = 4, REGISTRY = 8, CARD = 16, SLOT = 32, MARK = 64, EVERY_SLOT = BITMAP | LOCAL };

/* A call with numbers that are accepted in the world of `settled`, and its answer there. */
static const struct call {
    struct answer (*make)(const struct given *);
    unsigned takes;
    size_t slot;
    uint64_t owner, mark;
    struct answer answer;
} CALLS[] = {
    {register_reader, MODE | EVERY_SLOT | CARD | MARK, 0, B(61), B(71), {0, 1, 3, B(61), B(71)}},
    {update_reader, REGISTRY | SLOT | MARK, 1, B(41), B(72), {0, 1, 1, B(41), B(72)}},
    {unregister_reader, MODE | EVERY_SLOT | REGISTRY | SLOT, 1, B(41), 0, {0, 1, 0, 0, 0}},
    {register_for_snapshot, MODE | EVERY_SLOT | REGISTRY | CARD | MARK, 0, B(62), B(73),
     {0, 1, 3, B(62), B(73)}},
    {register_db_file, MODE | EVERY_SLOT | REGISTRY | CARD, 0, B(63), 0, {0, 1, 3, B(63), 0}},
    {unregister_for_snapshot, MODE | EVERY_SLOT | REGISTRY | SLOT | MARK, 65, B(44), B(54), {0, 1, 0, 0, 0}},
    {min_active, MODE | EVERY_SLOT | CARD, 0, 0, 0, {0, 1, 0, 0, B(51)}},
    {has_db_file, MODE | EVERY_SLOT | CARD, 0, 0, 0, {0, 0, 0, 0, 0}},
    {limit, MODE | EVERY_SLOT | CARD, 0, B(30), B(60), {0, 0, 0, 0, B(51)}},
};

enum { READER_CALLS = sizeof CALLS / sizeof *CALLS };

static void take(size_t slot, uint64_t owner, uint64_t mark, uint64_t local_owner) {
    w.bitmap[slot / 64] &= ~(UINT64_C(1) << (slot % 64));
    w.reader_frames[slot] = mark;
    w.reader_owners[slot] = owner;
    w.local_readers[slot] = local_owner;
}

/* As an accepted release or a reclaim leaves a slot. */
static void want_emptied(size_t slot) {
    wanted.bitmap[slot / 64] |= UINT64_C(1) << (slot % 64);
    wanted.reader_frames[slot] = WAL_UNUSED;
    wanted.reader_owners[slot] = 0;
    wanted.local_readers[slot] = 0;
}

/* As a registration leaves it. */
static void want_taken(size_t slot, uint64_t owner, uint64_t mark) {
    wanted.bitmap[slot / 64] &= ~(UINT64_C(1) << (slot % 64));
    wanted.reader_frames[slot] = mark;
    wanted.reader_owners[slot] = owner;
    wanted.local_readers[slot] = owner;
}

/* 70 slots. Held here: slot 1 at mark B(51) by a direct registration, slot 65 at mark B(54) by a shared one. Slots 0
 * and 2 are busy, all others granted. */
static struct given settled(const struct call *call, uint32_t mode) {
    struct given g = {.n = 70, .mode = mode, .bitmap = 2, .reader_frames = 70, .reader_owners = 70,
                      .local_readers = 70, .registry = 70, .card_len = 70,
                      .slot = call->slot, .owner = call->owner, .mark = call->mark};
    memset(g.card, WAL_GRANTED, sizeof g.card);
    g.card[0] = g.card[2] = WAL_BUSY;
    memset(&w, 0, sizeof w);
    for (size_t slot = 0; slot < SLOTS; slot++) {
        w.bitmap[slot / 64] |= UINT64_C(1) << (slot % 64);
        w.reader_frames[slot] = WAL_UNUSED;
    }
    take(1, B(41), B(51), B(41));
    take(65, B(44), B(54), B(44));
    w.registry[0] = (struct wal_shared_read_mark){.mark = B(54), .slot = 65, .owner = B(44), .holders = 1};
    wanted = w;
    return g;
}

static void same_answer(int line, struct answer r, struct answer expected) {
    same(line, "refusal", r.refusal, expected.refusal);
    same(line, "taken, found or active", r.yes, expected.yes);
    same(line, "slot", r.slot, expected.slot);
    same(line, "owner", r.owner, expected.owner);
    same(line, "mark or limit", r.mark, expected.mark);
    same_world(line);
}

#define ANSWERS(make, ...) same_answer(__LINE__, (make)(&g), (struct answer){__VA_ARGS__})
#define REFUSED(make, number) ANSWERS(make, .refusal = (number))

/* Every call with one thing wrong: refused with this number if it takes that thing, else accepted as without. */
#define EACH_REFUSED(thing, number, ...)                                                                     \
    for (size_t i = 0; i < READER_CALLS; i++) {                                                              \
        struct given g = settled(&CALLS[i], WAL_LINUX_OFD);                                                  \
        __VA_ARGS__;                                                                                         \
        struct answer r = CALLS[i].make(&g);                                                                 \
        if (CALLS[i].takes & (thing))                                                                        \
            same_answer(__LINE__, r, (struct answer){.refusal = (number)});                                  \
        else                                                                                                 \
            SAME(r.refusal, 0);                                                                              \
    }

static void reader_refusals(void) {
    for (uint32_t mode = 0; mode < 2; mode++)
        for (size_t i = 0; i < READER_CALLS; i++) {
            struct given g = settled(&CALLS[i], mode);
            struct answer r = CALLS[i].make(&g);
            SAME(r.refusal, 0);
            SAME(r.yes, CALLS[i].answer.yes);
            SAME(r.slot, CALLS[i].answer.slot);
            SAME(r.owner, CALLS[i].answer.owner);
            SAME(r.mark, CALLS[i].answer.mark);
        }
    const unsigned all = ~0u;
    EACH_REFUSED(all, WAL_REFUSED_SETTINGS, g.n = 0);
    EACH_REFUSED(all, WAL_REFUSED_SETTINGS, g.n = WAL_MAX_SLOTS + 1);
    EACH_REFUSED(all, WAL_REFUSED_SETTINGS, g.n = B(69));
    EACH_REFUSED(MODE, WAL_REFUSED_SETTINGS, g.mode = WAL_PROCESS_SCOPED_FCNTL + 1);
    EACH_REFUSED(MODE, WAL_REFUSED_SETTINGS, g.mode = 256);
    EACH_REFUSED(0, 0, g.n = WAL_MAX_SLOTS, g.bitmap = WAL_MAX_SLOTS / 64, g.reader_frames = WAL_MAX_SLOTS,
                 g.reader_owners = WAL_MAX_SLOTS, g.local_readers = WAL_MAX_SLOTS, g.registry = WAL_MAX_SLOTS,
                 g.card_len = WAL_MAX_SLOTS);
    EACH_REFUSED(BITMAP, WAL_REFUSED_SHORT_MEMORY, g.bitmap -= 1);
    EACH_REFUSED(all, WAL_REFUSED_SHORT_MEMORY, g.reader_frames -= 1);
    EACH_REFUSED(all, WAL_REFUSED_SHORT_MEMORY, g.reader_owners -= 1);
    EACH_REFUSED(LOCAL, WAL_REFUSED_SHORT_MEMORY, g.local_readers -= 1);
    EACH_REFUSED(REGISTRY, WAL_REFUSED_SHORT_MEMORY, g.registry -= 1);
    EACH_REFUSED(CARD, WAL_REFUSED_CARD, g.card_len -= 1);
    EACH_REFUSED(CARD, WAL_REFUSED_CARD, g.card_len += 1);
    EACH_REFUSED(CARD, WAL_REFUSED_CARD, g.card[69] = WAL_LOCK_ERROR + 1);
    EACH_REFUSED(SLOT, WAL_REFUSED_SLOT_NUMBER, g.slot = 70);
    EACH_REFUSED(SLOT, WAL_REFUSED_SLOT_NUMBER, g.slot += UINT64_C(1) << 32);
    EACH_REFUSED(MARK, WAL_REFUSED_UNUSED_MARK, g.mark = WAL_UNUSED);
}

/* The call of this row of CALLS, in the world in which it is accepted. */
#define SETTLED(make_it, lock_mode)                              \
    size_t row = 0;                                              \
    while (CALLS[row].make != (make_it))                         \
        row++;                                                   \
    struct given g = settled(&CALLS[row], lock_mode)

static void registrations(void) {
    SETTLED(register_reader, WAL_LINUX_OFD);
    want_taken(3, B(61), B(71));
    ANSWERS(register_reader, 0, 1, 3, B(61), B(71));
    g.owner = 0;
    REFUSED(register_reader, WAL_REFUSED_NO_OWNER);

    /* A slot of the second word. */
    memset(g.card, WAL_BUSY, sizeof g.card);
    g.owner = B(63);
    g.mark = B(74);
    ANSWERS(register_reader, 0);
    g.card[69] = WAL_GRANTED;
    want_taken(69, B(63), B(74));
    ANSWERS(register_reader, 0, 1, 69, B(63), B(74));

    /* Nothing is free: the slot of a reader that is gone is reclaimed and taken. */
    memset(w.bitmap, 0, sizeof w.bitmap);
    w.local_readers[69] = 0;
    wanted = w;
    want_taken(69, B(67), B(75));
    g.owner = B(67);
    g.mark = B(75);
    ANSWERS(register_reader, 0, 1, 69, B(67), B(75));
}

static void moves(void) {
    SETTLED(update_reader, WAL_LINUX_OFD);
    wanted.reader_frames[1] = B(72);
    ANSWERS(update_reader, 0, 1, 1, B(41), B(72));
    g.owner = B(42);
    REFUSED(update_reader, WAL_REFUSED_OTHER_OWNER);
    g.slot = 3;
    g.owner = 0;
    REFUSED(update_reader, WAL_REFUSED_NO_OWNER);
    g.slot = 65;
    g.owner = B(44);
    REFUSED(update_reader, WAL_REFUSED_SHARED_SLOT);
}

static void releases(void) {
    SETTLED(unregister_reader, WAL_LINUX_OFD);
    g.owner = B(42);
    REFUSED(unregister_reader, WAL_REFUSED_OTHER_OWNER);
    g.slot = 65;
    g.owner = B(44);
    REFUSED(unregister_reader, WAL_REFUSED_SHARED_SLOT);
    g.slot = 1;
    g.owner = B(41);
    want_emptied(1);
    ANSWERS(unregister_reader, .yes = 1);
    REFUSED(unregister_reader, WAL_REFUSED_NOT_HELD);
    w.local_readers[1] = wanted.local_readers[1] = B(41);
    g.owner = 0;
    REFUSED(unregister_reader, WAL_REFUSED_NO_OWNER);
}

static void shared_marks(void) {
    SETTLED(register_for_snapshot, WAL_LINUX_OFD);
    g.owner = 0;
    REFUSED(register_for_snapshot, WAL_REFUSED_NO_OWNER);
    g.owner = B(62);
    want_taken(3, B(62), B(73));
    wanted.registry[1] = (struct wal_shared_read_mark){.mark = B(73), .slot = 3, .owner = B(62), .holders = 1};
    ANSWERS(register_for_snapshot, 0, 1, 3, B(62), B(73));

    /* A second connection joins: the answer has the first one's slot and owner. */
    wanted.registry[1].holders = 2;
    g.owner = B(67);
    ANSWERS(register_for_snapshot, 0, 1, 3, B(62), B(73));
    w.registry[1].holders = wanted.registry[1].holders = 65534;
    wanted.registry[1].holders = 65535;
    ANSWERS(register_for_snapshot, 0, 1, 3, B(62), B(73));
    REFUSED(register_for_snapshot, WAL_REFUSED_REGISTRY);
    w.registry[1].holders = wanted.registry[1].holders = 2;

    /* Both are released: mark, slot and owner must be the record's. */
    g.mark = B(74), g.slot = 3, g.owner = B(62);
    REFUSED(unregister_for_snapshot, WAL_REFUSED_NO_SUCH_MARK);
    g.mark = B(73), g.slot = 65;
    REFUSED(unregister_for_snapshot, WAL_REFUSED_NO_SUCH_MARK);
    g.slot = 3, g.owner = B(67);
    REFUSED(unregister_for_snapshot, WAL_REFUSED_NO_SUCH_MARK);
    g.owner = 0;
    REFUSED(unregister_for_snapshot, WAL_REFUSED_NO_OWNER);
    g.owner = B(62);
    wanted.registry[1].holders = 1;
    ANSWERS(unregister_for_snapshot, .yes = 1);
    w.local_readers[3] = wanted.local_readers[3] = 0;
    REFUSED(unregister_for_snapshot, WAL_REFUSED_NOT_HELD);
    w.local_readers[3] = wanted.local_readers[3] = B(62);
    w.reader_owners[3] = wanted.reader_owners[3] = B(63);
    REFUSED(unregister_for_snapshot, WAL_REFUSED_OTHER_OWNER);
    w.reader_owners[3] = B(62);
    want_emptied(3);
    wanted.registry[1].holders = 0;
    ANSWERS(unregister_for_snapshot, .yes = 1);
}

static void db_file_readers(void) {
    SETTLED(register_db_file, WAL_LINUX_OFD);
    g.owner = 0;
    REFUSED(register_db_file, WAL_REFUSED_NO_OWNER);
    ANSWERS(has_db_file, 0);
    g.owner = B(63);
    want_taken(3, B(63), 0);
    wanted.registry[1] = (struct wal_shared_read_mark){.mark = 0, .slot = 3, .owner = B(63), .holders = 1};
    ANSWERS(register_db_file, 0, 1, 3, B(63), 0);
    ANSWERS(has_db_file, .yes = 1);
    /* It is no floor. */
    ANSWERS(min_active, .yes = 1, .mark = B(51));
    w.registry[1].holders = 65535;
    wanted.registry[1].holders = 65535;
    REFUSED(register_db_file, WAL_REFUSED_REGISTRY);
}

/* Slots of other processes, as the calls that look at every slot meet them, by each lock answer. */
static void live_slots(void) {
    SETTLED(min_active, WAL_LINUX_OFD);
    memset(g.card, WAL_BUSY, sizeof g.card);
    take(68, B(45), B(40), 0);
    take(69, B(46), 0, 0);
    wanted = w;
    ANSWERS(min_active, .yes = 1, .mark = B(40));
    ANSWERS(has_db_file, .yes = 1);

    /* Slot 69 reads the file: the limit is the least of the published frame, the floor and the number of copied frames. */
    g.mark = B(60);
    g.owner = B(70);
    ANSWERS(limit, .mark = B(40));
    g.mark = B(39);
    ANSWERS(limit, .mark = B(39));
    g.owner = B(38);
    ANSWERS(limit, .mark = B(38));
    g.mark = B(60);
    ANSWERS(limit, .mark = B(38));

    g.card[68] = WAL_LOCK_ERROR;
    REFUSED(min_active, WAL_REFUSED_PROBE);
    REFUSED(has_db_file, WAL_REFUSED_PROBE);
    REFUSED(limit, WAL_REFUSED_PROBE);

    g.card[68] = WAL_GRANTED;
    struct world before = w;
    want_emptied(68);
    ANSWERS(min_active, .yes = 1, .mark = B(51));
    w = before;
    ANSWERS(has_db_file, .yes = 1);
    w = before;
    ANSWERS(limit, .mark = B(38));

    /* A dead reader of the file is reclaimed and holds nothing back. */
    g.card[69] = WAL_GRANTED;
    before = w;
    want_emptied(69);
    ANSWERS(has_db_file, 0);
    w = before;
    ANSWERS(limit, .mark = B(51));

    /* No mark is left, and then one of the file alone, held here. */
    w.reader_frames[1] = w.reader_frames[65] = WAL_UNUSED;
    wanted = w;
    ANSWERS(min_active, 0);
    ANSWERS(limit, .mark = B(60));
    take(69, B(46), 0, B(46));
    wanted = w;
    ANSWERS(limit, .mark = B(38));

    /* A lock that could not be asked, of a slot that reads the file. */
    take(69, B(46), 0, 0);
    wanted = w;
    g.card[69] = WAL_LOCK_ERROR;
    REFUSED(limit, WAL_REFUSED_PROBE);
}

/* A slot whose bit is clear and that has no owner is reclaimed in LinuxOfd alone. */
static void registration_by_mode(struct answer (*make)(const struct given *), struct wal_shared_read_mark left) {
    for (uint32_t fcntl = 0; fcntl < 2; fcntl++) {
        SETTLED(make, fcntl ? WAL_PROCESS_SCOPED_FCNTL : WAL_LINUX_OFD);
        memset(g.card, WAL_BUSY, sizeof g.card);
        take(69, 0, B(40), 0);
        g.card[69] = WAL_GRANTED;
        wanted = w;
        if (fcntl) {
            ANSWERS(make, 0);
        } else {
            want_taken(69, g.owner, g.mark);
            wanted.registry[1] = left;
            ANSWERS(make, 0, 1, 69, g.owner, g.mark);
        }
    }
}

/* Where the modes differ, for every call that takes one. */
static void modes(void) {
    registration_by_mode(register_reader, (struct wal_shared_read_mark){0});
    registration_by_mode(register_for_snapshot, (struct wal_shared_read_mark){B(73), 69, B(62), 1});
    registration_by_mode(register_db_file, (struct wal_shared_read_mark){0, 69, B(63), 1});

    /* ProcessScopedFcntl compares the own cell too. */
    {
        SETTLED(unregister_reader, WAL_PROCESS_SCOPED_FCNTL);
        w.local_readers[1] = wanted.local_readers[1] = B(42);
        REFUSED(unregister_reader, WAL_REFUSED_OTHER_OWNER);
        g.mode = WAL_LINUX_OFD;
        want_emptied(1);
        ANSWERS(unregister_reader, .yes = 1);
    }
    {
        SETTLED(unregister_for_snapshot, WAL_PROCESS_SCOPED_FCNTL);
        w.local_readers[65] = wanted.local_readers[65] = B(42);
        REFUSED(unregister_for_snapshot, WAL_REFUSED_OTHER_OWNER);
        g.mode = WAL_LINUX_OFD;
        want_emptied(65);
        wanted.registry[0].holders = 0;
        ANSWERS(unregister_for_snapshot, .yes = 1);
    }

    /* There a lock that could not be asked counts as held. */
    SETTLED(limit, WAL_PROCESS_SCOPED_FCNTL);
    take(68, B(45), B(40), 0);
    take(69, B(46), 0, 0);
    wanted = w;
    g.card[68] = g.card[69] = WAL_LOCK_ERROR;
    ANSWERS(min_active, .yes = 1, .mark = B(40));
    ANSWERS(has_db_file, .yes = 1);
    ANSWERS(limit, .mark = B(30));

    /* And a slot without an owner is skipped. */
    w.reader_owners[69] = wanted.reader_owners[69] = 0;
    ANSWERS(has_db_file, 0);
    ANSWERS(limit, .mark = B(40));
}

int main(void) {
    owners();
    publishes();
    lock(wal_try_acquire_writer, wal_release_writer, &wanted.header.writer_owner);
    lock(wal_try_acquire_checkpoint, wal_release_checkpoint, &wanted.header.checkpoint_owner);
    records();
    lookups();
    cells_looked_at();
    frames_between();
    nearest_frames();
    searches_of_wide_numbers();
    index_settings();
    reader_refusals();
    registrations();
    moves();
    releases();
    shared_marks();
    db_file_readers();
    live_slots();
    modes();
    return differences != 0;
}

/* Makes every call in each case in which nothing changes: refused with each of its numbers, and accepted with every
 * lent cell as it was. All that the call is lent then lies in memory that can only be read, so that a store ends in a
 * fault, also one of the number that is there: no contract over values tells such a store from none, and no comparison
 * of cells does. Passes if nothing faults and each answer is the expected one; prints the cases that do not pass.
 * wal_publish_commit and the two bumps change the header at every call: by them and by a call of each other kind that
 * changes something it is tried that a store is noticed. Run by c/test. */
#define _GNU_SOURCE
#include <inttypes.h>
#include <setjmp.h>
#include <signal.h>
#include <stdio.h>
#include <string.h>
#include <sys/mman.h>

#include "wal_coordination.h"

enum {
    BLOCKS = 2,
    ENTRIES = BLOCKS * WAL_BLOCK_ENTRIES,
    HASH = BLOCKS * WAL_BLOCK_HASH_CELLS,
    CAPACITY = ENTRIES,
    SLOTS = 70, /* two words of the bitmap */
    WORDS = (SLOTS + 63) / 64,
    OUT = 8
};

/* All that calls are lent. The cells that a list writes lie in memory of their own. */
static struct world {
    struct wal_header header;
    uint64_t pages[ENTRIES], frames[ENTRIES];
    uint16_t hash[HASH];
    uint64_t bitmap[WORDS], reader_frames[SLOTS], reader_owners[SLOTS], local_readers[SLOTS];
    struct wal_shared_read_mark registry[SLOTS];
    uint8_t card[SLOTS + 1];
} *w;
static struct output {
    uint64_t pages[OUT], frames[OUT];
} *out;

/* What a call is given besides. */
struct given {
    uint32_t capacity, max_blocks, grow, has_watermark;
    size_t pages, frames, hash, out_pages, out_frames;
    uint64_t page, frame, min, max, watermark;
    uint32_t mode;
    uint8_t byte;
    size_t n, bitmap, reader_frames, reader_owners, local_readers, registry, card, slot;
    uint64_t local_owner, owner, mark;
};

/* A reply of any call: yes is answer, taken, found or active; number is the frame, the count, the mark, the limit or
 * the own cell of a lock. */
struct answer {
    uint32_t refusal;
    uint64_t yes, number, slot, owner;
};

/* --- The calls -------------------------------------------------------------------------------------------------- */

struct call {
    const char *name;
    struct answer (*make)(const struct given *g);
};

#define CALL(name)                                                   \
    static struct answer make_##name(const struct given *g);         \
    static const struct call name = {#name, make_##name};            \
    static struct answer make_##name(const struct given *g)

#define ENTRIES_OF(g) w->pages, (g)->pages, w->frames, (g)->frames
#define INDEX_OF(g) ENTRIES_OF(g), w->hash, (g)->hash
#define SLOTS_OF(g)                                                                                              \
    w->bitmap, (g)->bitmap, w->reader_frames, (g)->reader_frames, w->reader_owners, (g)->reader_owners,          \
        w->local_readers, (g)->local_readers
#define REGISTRY_OF(g) w->registry, (g)->registry
#define CARD_OF(g) w->card, (g)->card

CALL(owners) {
    return (struct answer){.owner = wal_owner_new(7, 9),
                           .yes = wal_owner_pid(g->owner),
                           .number = wal_owner_instance_id(g->owner)};
}

CALL(publish_commit) {
    wal_publish_commit(&w->header, g->frame, 1, 2, 3);
    return (struct answer){0};
}

CALL(publish_backfill) {
    wal_publish_backfill(&w->header, g->frame);
    return (struct answer){0};
}

CALL(bump_checkpoint_seq) {
    (void)g;
    return (struct answer){.number = wal_bump_checkpoint_seq(&w->header)};
}

CALL(bump_checkpoint_epoch) {
    (void)g;
    return (struct answer){.number = wal_bump_checkpoint_epoch(&w->header)};
}

static struct answer of_lock(struct wal_lock_reply r) {
    return (struct answer){.refusal = r.refusal, .yes = r.answer, .number = r.local_owner};
}

CALL(try_acquire_writer) {
    return of_lock(wal_try_acquire_writer(&w->header, g->local_owner, g->owner, g->byte));
}

CALL(try_acquire_checkpoint) {
    return of_lock(wal_try_acquire_checkpoint(&w->header, g->local_owner, g->owner, g->byte));
}

CALL(release_writer) {
    return of_lock(wal_release_writer(g->mode, &w->header, g->local_owner, g->owner));
}

CALL(release_checkpoint) {
    return of_lock(wal_release_checkpoint(g->mode, &w->header, g->local_owner, g->owner));
}

CALL(record_frame) {
    struct wal_index_reply r = wal_record_frame(g->capacity, g->max_blocks, &w->header, INDEX_OF(g), g->page, g->frame,
                                                g->grow);
    return (struct answer){.refusal = r.refusal, .yes = r.answer};
}

CALL(rollback_frames) {
    struct wal_index_reply r = wal_rollback_frames(g->capacity, g->max_blocks, &w->header, INDEX_OF(g), g->frame);
    return (struct answer){.refusal = r.refusal, .yes = r.answer};
}

CALL(find_frame) {
    struct wal_find_reply r = wal_find_frame(g->capacity, g->max_blocks, w->header, INDEX_OF(g), g->page, g->min,
                                             g->max, g->has_watermark, g->watermark);
    return (struct answer){.refusal = r.refusal, .yes = r.found, .number = r.frame};
}

static struct answer of_search(struct wal_frame_reply r) {
    return (struct answer){.refusal = r.refusal, .yes = r.found, .number = r.frame};
}

CALL(frame_between) {
    return of_search(wal_frame_between(g->capacity, g->max_blocks, w->header, ENTRIES_OF(g), g->page, g->min, g->max));
}

CALL(nearest_frame) {
    return of_search(wal_nearest_frame(g->capacity, g->max_blocks, w->header, ENTRIES_OF(g), g->page, g->frame));
}

CALL(iter_latest_frames) {
    struct wal_list_reply r = wal_iter_latest_frames(g->capacity, g->max_blocks, w->header, INDEX_OF(g), g->min,
                                                     g->max, out->pages, g->out_pages, out->frames, g->out_frames);
    return (struct answer){.refusal = r.refusal, .number = r.count};
}

static struct answer of_reader(struct wal_reader_reply r) {
    return (struct answer){
        .refusal = r.refusal, .yes = r.taken, .number = r.mark, .slot = r.slot, .owner = r.owner};
}

CALL(register_reader) {
    return of_reader(wal_register_reader(g->n, g->mode, SLOTS_OF(g), CARD_OF(g), g->owner, g->mark));
}

CALL(update_reader) {
    return of_reader(wal_update_reader(g->n, w->reader_frames, g->reader_frames, w->reader_owners, g->reader_owners,
                                       REGISTRY_OF(g), g->slot, g->owner, g->mark));
}

CALL(unregister_reader) {
    uint32_t refusal = wal_unregister_reader(g->n, g->mode, SLOTS_OF(g), REGISTRY_OF(g), g->slot, g->owner);
    return (struct answer){.refusal = refusal};
}

CALL(register_reader_for_snapshot) {
    return of_reader(wal_register_reader_for_snapshot(g->n, g->mode, SLOTS_OF(g), REGISTRY_OF(g), CARD_OF(g), g->owner,
                                                      g->mark));
}

CALL(register_db_file_reader) {
    return of_reader(
        wal_register_db_file_reader(g->n, g->mode, SLOTS_OF(g), REGISTRY_OF(g), CARD_OF(g), g->owner));
}

CALL(unregister_reader_for_snapshot) {
    uint32_t refusal = wal_unregister_reader_for_snapshot(g->n, g->mode, SLOTS_OF(g), REGISTRY_OF(g), g->mark, g->slot,
                                                          g->owner);
    return (struct answer){.refusal = refusal};
}

CALL(min_active_reader_frame) {
    struct wal_floor_reply r = wal_min_active_reader_frame(g->n, g->mode, SLOTS_OF(g), CARD_OF(g));
    return (struct answer){.refusal = r.refusal, .yes = r.found, .number = r.mark};
}

/* The number of copied frames is given as the watermark. */
CALL(copy_back_limit) {
    struct wal_limit_reply r = wal_copy_back_limit(g->n, g->mode, g->frame, g->watermark, SLOTS_OF(g), CARD_OF(g));
    return (struct answer){.refusal = r.refusal, .number = r.limit};
}

CALL(has_active_db_file_reader) {
    struct wal_db_file_reply r = wal_has_active_db_file_reader(g->n, g->mode, SLOTS_OF(g), CARD_OF(g));
    return (struct answer){.refusal = r.refusal, .yes = r.active};
}

/* --- A call on memory that can only be read --------------------------------------------------------------------- */

static int failures;

/* Where a fault goes back to, and what the call was to store to. */
static sigjmp_buf before_call;
static const char *faulted_at;

static void on_fault(int number, siginfo_t *info, void *context) {
    (void)number, (void)context;
    faulted_at = info->si_addr;
    siglongjmp(before_call, 1);
}

static void protect(void *memory, size_t bytes, int protection) {
    if (mprotect(memory, bytes, protection) != 0) {
        perror("mprotect");
        failures++;
    }
}

/* Makes the call. Answers 1 if it faulted. Where out_too is 0 the cells that a list writes can be written. */
static int faults(const struct call *call, const struct given *g, int out_too, struct answer *answer) {
    volatile int faulted = 0;
    protect(w, sizeof *w, PROT_READ);
    if (out_too)
        protect(out, sizeof *out, PROT_READ);
    if (sigsetjmp(before_call, 1) == 0)
        *answer = call->make(g);
    else
        faulted = 1;
    protect(w, sizeof *w, PROT_READ | PROT_WRITE);
    protect(out, sizeof *out, PROT_READ | PROT_WRITE);
    return faulted;
}

/* The parts that are lent. */
struct part {
    const char *name;
    char *from;
    size_t bytes;
};
enum { PARTS = 11 };

static struct part part(size_t i) {
#define PART(name) {#name, (char *)&w->name, sizeof w->name}
    const struct part parts[PARTS] = {
        PART(header),        PART(pages),         PART(frames),        PART(hash),
        PART(bitmap),        PART(reader_frames), PART(reader_owners), PART(local_readers),
        PART(registry),      PART(card),          {"output", (char *)out, sizeof *out},
    };
    return parts[i];
}

static const char *part_at(const char *address) {
    for (size_t i = 0; i < PARTS; i++)
        if (address >= part(i).from && address < part(i).from + part(i).bytes)
            return part(i).name;
    return "memory that is not lent";
}

static void failed(const struct call *call, const struct given *g, const char *with) {
    failures++;
    printf("%s, %s%s: ", call->name, with, g->mode == WAL_PROCESS_SCOPED_FCNTL ? ", ProcessScopedFcntl" : "");
}

static void made(const struct call *call, const struct given *g, const char *with, int out_too, struct answer expected) {
    struct answer r;
    if (faults(call, g, out_too, &r)) {
        failed(call, g, with);
        printf("a store to %s, though nothing changes\n", part_at(faulted_at));
        return;
    }
#define SAME(field)                                                                                           \
    if ((uint64_t)r.field != (uint64_t)expected.field) {                                                      \
        failed(call, g, with);                                                                                \
        printf("%s is %" PRIu64 " and should be %" PRIu64 "\n", #field, (uint64_t)r.field, (uint64_t)expected.field); \
    }
    SAME(refusal)
    SAME(yes)
    SAME(number)
    SAME(slot)
    SAME(owner)
}

/* The call with what is in g changes nothing and answers this. */
#define STORES_NOTHING(call, with, ...) made(&(call), &g, with, 1, (struct answer){__VA_ARGS__})
#define REFUSED(call, with, number) STORES_NOTHING(call, with, .refusal = (number))

/* The same with one thing other than it is in g. */
#define REFUSED_WITH(call, thing, number)                     \
    do {                                                      \
        const struct given kept = g;                          \
        g.thing;                                              \
        REFUSED(call, #thing, number);                        \
        g = kept;                                             \
    } while (0)

/* The call changes something: the store is noticed. */
static void stores(const struct call *call, const struct given *g, const char *with) {
    struct answer r;
    if (!faults(call, g, 1, &r)) {
        failed(call, g, with);
        printf("it changes something, and no store was noticed\n");
    }
}
#define STORES(call, with) stores(&(call), &g, with)

/* A store to the first and to the last byte of each part is noticed. */
static char *target;

CALL(store) {
    (void)g;
    *(volatile char *)target = 1;
    return (struct answer){0};
}

static void parts(void) {
    const struct given g = {0};
    for (size_t i = 0; i < PARTS; i++) {
        target = part(i).from;
        STORES(store, part(i).name);
        target += part(i).bytes - 1;
        STORES(store, part(i).name);
    }
}

/* --- The header ------------------------------------------------------------------------------------------------- */

static void headers(void) {
    struct given g = {.owner = UINT64_C(7) << 32 | 9, .frame = 5};
    memset(w, 0, sizeof *w);
    w->header.nbackfills = 5;
    STORES_NOTHING(owners, "which are lent nothing", .owner = UINT64_C(7) << 32 | 9, .yes = 7, .number = 9);
    STORES_NOTHING(publish_backfill, "the count that is there", 0);
    g.frame = 6;
    STORES(publish_backfill, "another count");
    STORES(publish_commit, "any");
    STORES(bump_checkpoint_seq, "any");
    STORES(bump_checkpoint_epoch, "any");
}

static void lock(struct call acquire, struct call release, uint64_t *owner_cell) {
    struct given g = {.owner = 41, .byte = WAL_GRANTED};
    memset(w, 0, sizeof *w);
    *owner_cell = 40;
    STORES(acquire, "granted");
    REFUSED_WITH(acquire, owner = 0, WAL_REFUSED_NO_OWNER);
    REFUSED_WITH(acquire, byte = WAL_LOCK_ERROR + 1, WAL_REFUSED_CARD);
    g.byte = WAL_BUSY;
    STORES_NOTHING(acquire, "busy", 0);
    g.byte = WAL_LOCK_ERROR;
    STORES_NOTHING(acquire, "lock not asked", 0);
    g.byte = WAL_GRANTED;
    g.local_owner = 42;
    STORES_NOTHING(acquire, "held here", .number = 42);
    g.local_owner = 0;
    *owner_cell = 41;
    STORES_NOTHING(acquire, "the owner is in the cell already", .yes = 1, .number = 41);

    for (g.mode = 0; g.mode < 2; g.mode++) {
        g.local_owner = 41;
        STORES(release, "held here");
        g.local_owner = 0;
        REFUSED(release, "not held here", WAL_REFUSED_NOT_HELD);
    }
    g.local_owner = 41;
    g.mode = WAL_PROCESS_SCOPED_FCNTL + 1;
    STORES_NOTHING(release, "a third mode", .refusal = WAL_REFUSED_SETTINGS, .number = 41);
    g.mode = WAL_PROCESS_SCOPED_FCNTL;
    g.owner = 43;
    STORES_NOTHING(release, "another owner", .refusal = WAL_REFUSED_OTHER_OWNER, .number = 41);
    g.mode = WAL_LINUX_OFD;
    g.owner = 0;
    STORES_NOTHING(release, "owner 0", .refusal = WAL_REFUSED_NO_OWNER, .number = 41);
    g.owner = 41;
    *owner_cell = 0;
    STORES_NOTHING(release, "no owner is in the cell", .yes = 1);
}

/* --- The frame index -------------------------------------------------------------------------------------------- */

/* Three entries of two pages, up to frame 3, the first two published. */
static struct given indexed(void) {
    const struct given g = {.capacity = CAPACITY, .max_blocks = BLOCKS, .pages = ENTRIES, .frames = ENTRIES,
                            .hash = HASH, .out_pages = OUT, .out_frames = OUT, .page = 7, .frame = 3, .min = 1,
                            .max = 3};
    memset(w, 0, sizeof *w);
    w->header.frame_index_blocks = 1;
    for (uint64_t frame = 1; frame <= 3; frame++)
        wal_record_frame(CAPACITY, BLOCKS, &w->header, INDEX_OF(&g), frame == 2 ? 8199 : 7, frame, 0);
    w->header.max_frame = 2;
    return g;
}

/* Refusals 1 and 2, which all calls on the index have. */
static void entries_refusals(struct call call) {
    struct given g = indexed();
    REFUSED_WITH(call, capacity = 0, WAL_REFUSED_SETTINGS);
    REFUSED_WITH(call, capacity = WAL_MAX_CAPACITY + 1, WAL_REFUSED_SETTINGS);
    REFUSED_WITH(call, capacity = 2, WAL_REFUSED_SETTINGS);
    REFUSED_WITH(call, max_blocks = 0, WAL_REFUSED_SETTINGS);
    REFUSED_WITH(call, max_blocks = WAL_MAX_BLOCKS + 1, WAL_REFUSED_SETTINGS);
    REFUSED_WITH(call, pages -= 1, WAL_REFUSED_SHORT_MEMORY);
    REFUSED_WITH(call, frames -= 1, WAL_REFUSED_SHORT_MEMORY);
    w->header.frame_index_blocks = BLOCKS + 1;
    REFUSED(call, "more blocks than their maximum", WAL_REFUSED_SETTINGS);
    w->header.frame_index_blocks = 0;
    REFUSED(call, "more entries than the blocks have", WAL_REFUSED_SETTINGS);
}

/* The same of calls that are lent the hash. */
static void index_refusals(struct call call) {
    entries_refusals(call);
    struct given g = indexed();
    REFUSED_WITH(call, hash -= 1, WAL_REFUSED_SHORT_MEMORY);
}

static void records(void) {
    struct given g = indexed();
    g.frame = 4;
    STORES(record_frame, "the next frame");
    REFUSED_WITH(record_frame, frame = 3, WAL_REFUSED_FRAME_ORDER);
    REFUSED_WITH(record_frame, frame = 0, WAL_REFUSED_FRAME_ORDER);
    for (size_t cell = 0; cell < WAL_BLOCK_HASH_CELLS; cell++)
        w->hash[cell] = 1;
    REFUSED(record_frame, "no hash cell is empty", WAL_REFUSED_HASH_FULL);

    /* The first block is full: a frame that is out of order lets nothing grow. */
    g = indexed();
    w->header.frame_index_len = WAL_BLOCK_ENTRIES;
    w->frames[WAL_BLOCK_ENTRIES - 1] = 9;
    g.frame = 9;
    g.grow = 1;
    REFUSED(record_frame, "out of order where a block would be added", WAL_REFUSED_FRAME_ORDER);

    /* Dropped. Where the flag is 0 it is set. */
    g.frame = 10;
    g.grow = 0;
    STORES(record_frame, "dropped, flag 0");
    w->header.frame_index_overflowed = 1;
    STORES_NOTHING(record_frame, "dropped, no growth, flag 1", 0);
    g.max_blocks = 1;
    g.grow = 1;
    STORES_NOTHING(record_frame, "dropped, blocks at their maximum, flag 1", 0);
    g.capacity = WAL_BLOCK_ENTRIES;
    STORES_NOTHING(record_frame, "dropped, capacity reached, flag 1", 0);

    /* Frame 1 with nothing published empties the index, and clears the flag before it is set. */
    g = indexed();
    w->header = (struct wal_header){.frame_index_overflowed = 1};
    g.frame = 1;
    STORES_NOTHING(record_frame, "frame 1, dropped, index without entry and block, flag 1", 0);
    w->header.frame_index_overflowed = 0;
    STORES(record_frame, "frame 1, dropped, index without entry and block, flag 0");
}

static void rollbacks(void) {
    struct given g = indexed();
    g.frame = 2;
    STORES(rollback_frames, "one entry is dropped");
    g.frame = 0;
    STORES(rollback_frames, "all are dropped");
    g.frame = 3;
    STORES_NOTHING(rollback_frames, "to the last frame", .yes = 3);
    g.frame = UINT64_MAX;
    STORES_NOTHING(rollback_frames, "to a later frame", .yes = 3);
    w->header.frame_index_overflowed = 1;
    STORES_NOTHING(rollback_frames, "nothing is dropped, flag 1", .yes = 3);
    w->header.frame_index_len = WAL_BLOCK_ENTRIES;
    w->frames[WAL_BLOCK_ENTRIES - 1] = 9;
    g.frame = 9;
    STORES_NOTHING(rollback_frames, "nothing is dropped of a full block", .yes = WAL_BLOCK_ENTRIES);
    w->header.frame_index_len = 0;
    g.frame = 0;
    STORES_NOTHING(rollback_frames, "an empty index", 0);
}

static void lookups(void) {
    struct given g = indexed();
    STORES_NOTHING(find_frame, "a frame", .yes = 1, .number = 3);
    g.page = 8;
    STORES_NOTHING(find_frame, "an absent page", 0);
    g.page = 7;
    g.min = 4;
    STORES_NOTHING(find_frame, "between no frames", 0);
    g.min = g.has_watermark = 1;
    g.watermark = 2;
    STORES_NOTHING(find_frame, "under a watermark", .yes = 1, .number = 1);

    /* A list writes its pairs, if it has some. */
    made(&iter_latest_frames, &g, "two pairs", 0, (struct answer){.number = 2});
    STORES(iter_latest_frames, "two pairs");
    REFUSED_WITH(iter_latest_frames, out_pages = 1, WAL_REFUSED_SHORT_LIST);
    REFUSED_WITH(iter_latest_frames, out_frames = 1, WAL_REFUSED_SHORT_LIST);
    g.min = 4;
    STORES_NOTHING(iter_latest_frames, "between no frames", 0);
    g.min = 1;
    w->header.frame_index_len = 0;
    STORES_NOTHING(iter_latest_frames, "an empty index", 0);
}

/* They change nothing in any case. */
static void searches(void) {
    struct given g = indexed();
    g.min = 2;
    STORES_NOTHING(frame_between, "a frame that is not published", .yes = 1, .number = 3);
    g.min = 0;
    g.max = 1;
    STORES_NOTHING(frame_between, "a published frame", .yes = 1, .number = 1);
    g.min = g.max = 2;
    STORES_NOTHING(frame_between, "between no frames", 0);
    g.min = 3;
    g.max = 1;
    STORES_NOTHING(frame_between, "bounds in the wrong order", 0);
    g.frame = 9;
    STORES_NOTHING(nearest_frame, "a frame that is not published", .yes = 1, .number = 3);
    g.frame = 2;
    STORES_NOTHING(nearest_frame, "two frames as near", .yes = 1, .number = 1);

    g.min = 0;
    g.max = UINT64_MAX;
    g.page = 8;
    STORES_NOTHING(frame_between, "an absent page", 0);
    STORES_NOTHING(nearest_frame, "an absent page", 0);
    g.page = 7;
    w->header.frame_index_len = 0;
    STORES_NOTHING(frame_between, "an empty index", 0);
    STORES_NOTHING(nearest_frame, "an empty index", 0);
}

/* --- Readers ---------------------------------------------------------------------------------------------------- */

static void take(size_t slot, uint64_t owner, uint64_t mark, uint64_t local_owner) {
    w->bitmap[slot / 64] &= ~(UINT64_C(1) << (slot % 64));
    w->reader_frames[slot] = mark;
    w->reader_owners[slot] = owner;
    w->local_readers[slot] = local_owner;
}

/* Held here: slot 1 at mark 51 by a direct registration, slot 65 at mark 54 by a shared one, whose record is the third.
 * Slot 68 is another process's, at mark 60. No lock is granted: nothing can be taken or reclaimed. */
static struct given registered(uint32_t mode) {
    const struct given g = {.n = SLOTS, .mode = mode, .bitmap = WORDS, .reader_frames = SLOTS, .reader_owners = SLOTS,
                            .local_readers = SLOTS, .registry = SLOTS, .card = SLOTS, .slot = 1, .owner = 41,
                            .mark = 51, .frame = 80};
    memset(w, 0, sizeof *w);
    for (size_t slot = 0; slot < SLOTS; slot++) {
        w->bitmap[slot / 64] |= UINT64_C(1) << (slot % 64);
        w->reader_frames[slot] = WAL_UNUSED;
    }
    take(1, 41, 51, 41);
    take(65, 44, 54, 44);
    take(68, 45, 60, 0);
    w->registry[2] = (struct wal_shared_read_mark){.mark = 54, .slot = 65, .owner = 44, .holders = 1};
    return g;
}

/* What a call takes besides slot frames and slot owners. */
enum { MODE = 1, EVERY_SLOT = 2, REGISTRY = 4, CARD = 8, SLOT = 16 };

/* The refusals that calls have in common which take these things. */
static void reader_refusals(struct call call, unsigned takes) {
    struct given g = registered(WAL_LINUX_OFD);
    REFUSED_WITH(call, n = 0, WAL_REFUSED_SETTINGS);
    REFUSED_WITH(call, n = WAL_MAX_SLOTS + 1, WAL_REFUSED_SETTINGS);
    REFUSED_WITH(call, reader_frames -= 1, WAL_REFUSED_SHORT_MEMORY);
    REFUSED_WITH(call, reader_owners -= 1, WAL_REFUSED_SHORT_MEMORY);
    if (takes & MODE)
        REFUSED_WITH(call, mode = WAL_PROCESS_SCOPED_FCNTL + 1, WAL_REFUSED_SETTINGS);
    if (takes & EVERY_SLOT) {
        REFUSED_WITH(call, bitmap -= 1, WAL_REFUSED_SHORT_MEMORY);
        REFUSED_WITH(call, local_readers -= 1, WAL_REFUSED_SHORT_MEMORY);
    }
    if (takes & REGISTRY)
        REFUSED_WITH(call, registry -= 1, WAL_REFUSED_SHORT_MEMORY);
    if (takes & SLOT)
        REFUSED_WITH(call, slot = SLOTS, WAL_REFUSED_SLOT_NUMBER);
    if (takes & CARD) {
        REFUSED_WITH(call, card -= 1, WAL_REFUSED_CARD);
        REFUSED_WITH(call, card += 1, WAL_REFUSED_CARD);
        w->card[SLOTS - 1] = WAL_LOCK_ERROR + 1;
        REFUSED(call, "a byte above 2 on the card", WAL_REFUSED_CARD);
    }
}

/* No slot can be taken, at a mark that is not shared here. */
static void none_taken(struct call call) {
    for (uint32_t mode = 0; mode < 2; mode++) {
        struct given g = registered(mode);
        g.mark = 70;
        STORES_NOTHING(call, "all slots busy", 0);
        REFUSED_WITH(call, owner = 0, WAL_REFUSED_NO_OWNER);
        memset(w->card, WAL_LOCK_ERROR, SLOTS);
        STORES_NOTHING(call, "no lock could be asked", 0);
        memset(w->card, WAL_GRANTED, SLOTS);
        w->card[68] = WAL_BUSY;
        for (size_t slot = 0; slot < SLOTS; slot++)
            if (slot != 68)
                w->local_readers[slot] = 46;
        STORES_NOTHING(call, "all slots but a busy one held here", 0);
        w->local_readers[3] = 0;
        STORES(call, "a slot is free");
    }
    /* A slot of nobody is reclaimed in LinuxOfd alone. */
    struct given g = registered(WAL_PROCESS_SCOPED_FCNTL);
    g.mark = 70;
    take(69, 0, 40, 0);
    w->card[69] = WAL_GRANTED;
    STORES_NOTHING(call, "only a slot of nobody is granted", 0);
}

static void registrations(void) {
    const unsigned takes = MODE | EVERY_SLOT | CARD;
    reader_refusals(register_reader, takes);
    reader_refusals(register_reader_for_snapshot, takes | REGISTRY);
    reader_refusals(register_db_file_reader, takes | REGISTRY);
    none_taken(register_reader);
    none_taken(register_reader_for_snapshot);
    none_taken(register_db_file_reader);

    for (uint32_t mode = 0; mode < 2; mode++) {
        struct given g = registered(mode);
        REFUSED_WITH(register_reader, mark = WAL_UNUSED, WAL_REFUSED_UNUSED_MARK);
        REFUSED_WITH(register_reader_for_snapshot, mark = WAL_UNUSED, WAL_REFUSED_UNUSED_MARK);
        g.mark = 54;
        STORES(register_reader_for_snapshot, "a second holder");
        w->registry[2].holders = 65535;
        REFUSED(register_reader_for_snapshot, "65,535 holders", WAL_REFUSED_REGISTRY);
        w->registry[2].mark = 0;
        REFUSED(register_db_file_reader, "65,535 holders", WAL_REFUSED_REGISTRY);

        for (size_t i = 0; i < SLOTS; i++)
            w->registry[i] = (struct wal_shared_read_mark){.mark = 100 + i, .slot = 65, .owner = 44, .holders = 1};
        STORES_NOTHING(register_reader_for_snapshot, "neither a record nor a slot", 0);
        STORES_NOTHING(register_db_file_reader, "neither a record nor a slot", 0);
        w->card[3] = WAL_GRANTED;
        REFUSED(register_reader_for_snapshot, "a slot and no record", WAL_REFUSED_REGISTRY);
        REFUSED(register_db_file_reader, "a slot and no record", WAL_REFUSED_REGISTRY);
    }
}

static void moves(void) {
    reader_refusals(update_reader, REGISTRY | SLOT);
    struct given g = registered(WAL_LINUX_OFD);
    STORES_NOTHING(update_reader, "the mark that the slot has", .yes = 1, .number = 51, .slot = 1, .owner = 41);
    REFUSED_WITH(update_reader, owner = 42, WAL_REFUSED_OTHER_OWNER);
    REFUSED_WITH(update_reader, mark = WAL_UNUSED, WAL_REFUSED_UNUSED_MARK);
    g.mark = 52;
    STORES(update_reader, "another mark");
    g.slot = 3;
    g.owner = 0;
    REFUSED(update_reader, "owner 0", WAL_REFUSED_NO_OWNER);
    g.slot = 65;
    g.owner = 44;
    REFUSED(update_reader, "a shared slot", WAL_REFUSED_SHARED_SLOT);
}

static void releases(void) {
    const unsigned takes = MODE | EVERY_SLOT | REGISTRY | SLOT;
    reader_refusals(unregister_reader, takes);
    reader_refusals(unregister_reader_for_snapshot, takes);
    for (uint32_t mode = 0; mode < 2; mode++) {
        struct given g = registered(mode);
        STORES(unregister_reader, "held here");
        REFUSED_WITH(unregister_reader, owner = 42, WAL_REFUSED_OTHER_OWNER);
        REFUSED_WITH(unregister_reader, slot = 3, WAL_REFUSED_NOT_HELD);
        g.slot = 65;
        g.owner = 44;
        REFUSED(unregister_reader, "a shared slot", WAL_REFUSED_SHARED_SLOT);

        g.mark = 54;
        STORES(unregister_reader_for_snapshot, "the last holder");
        REFUSED_WITH(unregister_reader_for_snapshot, mark = WAL_UNUSED, WAL_REFUSED_UNUSED_MARK);
        REFUSED_WITH(unregister_reader_for_snapshot, mark = 55, WAL_REFUSED_NO_SUCH_MARK);
        w->registry[2].owner = 47;
        REFUSED(unregister_reader_for_snapshot, "the record has another owner", WAL_REFUSED_NO_SUCH_MARK);
        w->registry[2].owner = 44;
        w->registry[2].slot = 64;
        REFUSED(unregister_reader_for_snapshot, "the record has another slot", WAL_REFUSED_NO_SUCH_MARK);
        w->registry[2].slot = 65;
        w->registry[2].holders = 2;
        STORES(unregister_reader_for_snapshot, "one of two holders");
        w->registry[2].holders = 1;
        w->reader_owners[65] = 48;
        REFUSED(unregister_reader_for_snapshot, "the slot has another owner", WAL_REFUSED_OTHER_OWNER);
        w->reader_owners[65] = 44;
        w->local_readers[65] = 0;
        REFUSED(unregister_reader_for_snapshot, "not held here", WAL_REFUSED_NOT_HELD);
    }

    /* ProcessScopedFcntl compares the own cell too. In LinuxOfd owner 0 can meet no lower number. */
    struct given g = registered(WAL_PROCESS_SCOPED_FCNTL);
    w->local_readers[1] = w->local_readers[65] = 49;
    REFUSED(unregister_reader, "the own cell has another owner", WAL_REFUSED_OTHER_OWNER);
    g.slot = 65;
    g.owner = 44;
    g.mark = 54;
    REFUSED(unregister_reader_for_snapshot, "the own cell has another owner", WAL_REFUSED_OTHER_OWNER);
    g.mode = WAL_LINUX_OFD;
    g.owner = w->reader_owners[1] = w->reader_owners[65] = 0;
    REFUSED(unregister_reader_for_snapshot, "owner 0", WAL_REFUSED_NO_OWNER);
    g.slot = 1;
    REFUSED(unregister_reader, "owner 0", WAL_REFUSED_NO_OWNER);
}

static void floors(void) {
    const struct call calls[] = {min_active_reader_frame, copy_back_limit, has_active_db_file_reader};
    for (size_t i = 0; i < 3; i++)
        reader_refusals(calls[i], MODE | EVERY_SLOT | CARD);
    for (uint32_t mode = 0; mode < 2; mode++) {
        struct given g = registered(mode);
        STORES_NOTHING(min_active_reader_frame, "slots held here", .yes = 1, .number = 51);
        STORES_NOTHING(copy_back_limit, "slots held here", .number = 51);
        STORES_NOTHING(has_active_db_file_reader, "slots held here", 0);
        g.frame = 50;
        STORES_NOTHING(copy_back_limit, "the published frame", .number = 50);
        take(69, 46, 0, 0);
        STORES_NOTHING(has_active_db_file_reader, "a reader of the file", .yes = 1);
        STORES_NOTHING(min_active_reader_frame, "a reader of the file", .yes = 1, .number = 51);
        g.watermark = 12;
        STORES_NOTHING(copy_back_limit, "a reader of the file", .number = 12);

        take(69, 46, 40, 0);
        w->card[69] = WAL_LOCK_ERROR;
        if (mode == WAL_LINUX_OFD) {
            for (size_t i = 0; i < 3; i++)
                REFUSED(calls[i], "a lock could not be asked", WAL_REFUSED_PROBE);
        } else {
            STORES_NOTHING(min_active_reader_frame, "a lock could not be asked", .yes = 1, .number = 40);
            STORES_NOTHING(copy_back_limit, "a lock could not be asked", .number = 40);
            STORES_NOTHING(has_active_db_file_reader, "a lock could not be asked", 0);
        }

        /* A dead reader's slot is reclaimed, but not behind the first live reader of the file. */
        w->card[69] = WAL_GRANTED;
        for (size_t i = 0; i < 3; i++)
            STORES(calls[i], "a dead reader");
        take(68, 45, 0, 0);
        STORES_NOTHING(has_active_db_file_reader, "a reader of the file before a dead reader", .yes = 1);

        for (size_t slot = 0; slot < SLOTS; slot++)
            w->reader_frames[slot] = WAL_UNUSED;
        memset(w->card, WAL_GRANTED, SLOTS);
        STORES_NOTHING(min_active_reader_frame, "no reader", 0);
        STORES_NOTHING(copy_back_limit, "no reader", .number = 50);
        STORES_NOTHING(has_active_db_file_reader, "no reader", 0);
    }
    /* A slot of nobody is skipped in ProcessScopedFcntl. */
    struct given g = registered(WAL_PROCESS_SCOPED_FCNTL);
    take(69, 0, 40, 0);
    w->card[69] = WAL_GRANTED;
    STORES_NOTHING(min_active_reader_frame, "a slot of nobody", .yes = 1, .number = 51);
    STORES_NOTHING(copy_back_limit, "a slot of nobody", .number = 51);
    STORES_NOTHING(has_active_db_file_reader, "a slot of nobody", 0);
}

static void *mapped(size_t bytes) {
    void *memory = mmap(NULL, bytes, PROT_READ | PROT_WRITE, MAP_PRIVATE | MAP_ANONYMOUS, -1, 0);
    return memory == MAP_FAILED ? NULL : memory;
}

int main(void) {
    struct sigaction action;
    memset(&action, 0, sizeof action);
    action.sa_sigaction = on_fault;
    action.sa_flags = SA_SIGINFO;
    w = mapped(sizeof *w);
    out = mapped(sizeof *out);
    if (w == NULL || out == NULL || sigaction(SIGSEGV, &action, NULL) != 0) {
        perror("read_only");
        return 2;
    }
    parts();
    headers();
    lock(try_acquire_writer, release_writer, &w->header.writer_owner);
    lock(try_acquire_checkpoint, release_checkpoint, &w->header.checkpoint_owner);
    index_refusals(record_frame);
    index_refusals(rollback_frames);
    index_refusals(find_frame);
    index_refusals(iter_latest_frames);
    entries_refusals(frame_between);
    entries_refusals(nearest_frame);
    records();
    rollbacks();
    lookups();
    searches();
    registrations();
    moves();
    releases();
    floors();
    return failures != 0;
}

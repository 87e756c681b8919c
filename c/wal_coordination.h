/* The shared frame index of a write-ahead log, its reader slots, locks and counters.
 *
 * Link with libwal_coordination.a, which ./build proves and writes and ./install puts where pkg-config finds it. x86-64,
 * System V calling convention.
 *
 * What the caller keeps to. The library is proved for any numbers and any contents of the memory that it is lent;
 * these points it cannot see:
 *
 *   - A slice is a pointer and a count of elements. The pointer is aligned and not null, also where the count is 0,
 *     and all of its elements are the caller's to lend until the call returns.
 *   - Parts lent to one call do not overlap, and nothing else reads or writes them during the call. Processes that
 *     share memory make one call at a time: each takes its turn, by a lock of their own, around what it does. A byte
 *     lock does not exclude threads of one process, which are granted what their process holds: they need a mutex
 *     besides.
 *   - A call runs to its end. A process that is stopped for ever inside one leaves the memory between two stores.
 *   - All calls on one memory are given the same settings. A process has one set of own cells and one registry.
 *   - Lock answers are true for the whole call. They are asked, and freed again, by the rules that follow.
 *
 * Locks. Behind the writer lock, the checkpoint lock and each reader slot stands a byte lock of a file. The caller
 * asks for it without waiting, passes the answer to the call, and holds it for as long as the library's cells say
 * so. When a process dies the kernel frees its locks; that is how others know its slots as dead. two_processes.c
 * shows all of this.
 *
 *   - What is held here is not asked: a slot with an owner in local_readers, a lock whose own cell is not 0. Its
 *     byte lock would be granted again, to its own open file description or process; freed after the call, it would
 *     be gone, and with it the hold: other processes would take the slot for dead and copy over pages that its
 *     reader still reads.
 *   - A card has one answer for each slot. For a registration ask the free slots (bit 1) in order until one is
 *     granted, and only if none is, the others. For the floor, the copy-back limit and
 *     wal_has_active_db_file_reader ask the slots whose frame is not WAL_UNUSED (WAL_PROCESS_SCOPED_FCNTL: and
 *     whose owner is not 0). Slots that are held here, and slots that are not asked, stand as WAL_BUSY: a busy slot
 *     is neither taken nor reclaimed.
 *   - After the call, accepted or refused, the caller frees each lock that it was granted for this card, but for
 *     that of the slot that the answer names.
 *   - WAL_LOCK_ERROR says that a lock could not be asked. A registration passes such a slot over. In WAL_LINUX_OFD
 *     the floor, the limit and wal_has_active_db_file_reader are refused with 15 if a reader's lock could not be
 *     asked: nothing is copied then, and the question is put again later. The caller frees what was granted, as
 *     always.
 *   - A process opens the file once, and after a fork anew: a descriptor that came from its parent has the parent's
 *     locks. WAL_PROCESS_SCOPED_FCNTL: to close any descriptor of the file frees all locks of the process.
 *
 * Every call ends. A refused call answers the number of its refusal alone and changes nothing (docs/REFUSALS.md); 0
 * means accepted. wal_refusal_text says a number in words. A call that is refused, or that leaves every lent cell as it
 * is, makes no store: it may be made on memory that is mapped read-only. The comment of a function is its contract in
 * words; the contract itself is in the source of crates/c_header, crates/c_index, crates/c_readers_c and
 * crates/c_db_file_reader. */
#ifndef WAL_COORDINATION_H
#define WAL_COORDINATION_H

#include <stddef.h>
#include <stdint.h>

#ifdef __cplusplus
extern "C" {
#endif

/* The version of this header and its library; the Rust crate has the same. As one number 1.2.3 is 1002003. Where a
 * declaration changes, the minor number rises as long as the major one is 0: a host is then compiled anew. */
#define WAL_COORDINATION_VERSION_MAJOR 0
#define WAL_COORDINATION_VERSION_MINOR 4
#define WAL_COORDINATION_VERSION_PATCH 0
#define WAL_COORDINATION_VERSION                                                       \
    (WAL_COORDINATION_VERSION_MAJOR * 1000000 + WAL_COORDINATION_VERSION_MINOR * 1000 + \
     WAL_COORDINATION_VERSION_PATCH)

/* The limits of the settings. */
#define WAL_MAX_CAPACITY 65536 /* entries of the index */
#define WAL_MAX_BLOCKS 16      /* blocks of the index, 4,096 entries each */
#define WAL_MAX_SLOTS 256      /* reader slots */

/* A process lends 4,096 cells of pages and frames and 8,192 of hash for each block that the index may have. Fresh,
 * every hash cell is 0; pages and frames may hold anything. A hash cell is an entry's place in its block + 1, 0 if
 * it is empty. */
#define WAL_BLOCK_ENTRIES 4096
#define WAL_BLOCK_HASH_CELLS 8192

/* The frame of a reader slot without a reader. */
#define WAL_UNUSED UINT64_MAX

/* Lock modes: locks of an open file description (fcntl with F_OFD_SETLK), and those of a process (F_SETLK). */
enum { WAL_LINUX_OFD = 0, WAL_PROCESS_SCOPED_FCNTL = 1 };

/* Lock answers: another process holds it; it is ours until it is freed; it could not be asked. */
enum { WAL_BUSY = 0, WAL_GRANTED = 1, WAL_LOCK_ERROR = 2 };

/* Refusals. */
enum {
    WAL_REFUSED_SETTINGS = 1,
    WAL_REFUSED_SHORT_MEMORY = 2,
    WAL_REFUSED_FRAME_ORDER = 3,
    WAL_REFUSED_HASH_FULL = 4,
    WAL_REFUSED_SHORT_LIST = 5,
    WAL_REFUSED_SLOT_NUMBER = 6,
    WAL_REFUSED_NOT_HELD = 7,
    WAL_REFUSED_OTHER_OWNER = 8,
    WAL_REFUSED_NO_OWNER = 9,
    WAL_REFUSED_UNUSED_MARK = 10,
    WAL_REFUSED_SHARED_SLOT = 11,
    WAL_REFUSED_NO_SUCH_MARK = 12,
    WAL_REFUSED_REGISTRY = 13,
    WAL_REFUSED_CARD = 14,
    WAL_REFUSED_PROBE = 15
};

/* A refusal's word, and when it is given, for a host's log. The text stands in this header and not in the library: all
 * code of the library is proved, and a host in C or C++ needs no second file to link. */
static inline const char *wal_refusal_text(uint32_t refusal) {
    switch (refusal) {
    case 0: return "accepted";
    case WAL_REFUSED_SETTINGS:
        return "settings: a setting is out of its limits, or the index has more entries than capacity or blocks "
               "allow, or more blocks than its maximum";
    case WAL_REFUSED_SHORT_MEMORY: return "short memory: a lent part is shorter than the settings ask";
    case WAL_REFUSED_FRAME_ORDER: return "frame order: the frame is not above the last one recorded";
    case WAL_REFUSED_HASH_FULL: return "hash full: the block's hash has no empty cell: the memory is damaged";
    case WAL_REFUSED_SHORT_LIST: return "short list: there are more pairs than output cells";
    case WAL_REFUSED_SLOT_NUMBER: return "slot number: there is no such slot";
    case WAL_REFUSED_NOT_HELD: return "not held: what is to be released is not held by this process";
    case WAL_REFUSED_OTHER_OWNER: return "other owner: the slot or lock has another owner";
    case WAL_REFUSED_NO_OWNER: return "no owner: owner 0 is no owner";
    case WAL_REFUSED_UNUSED_MARK:
        return "unused mark: the greatest 64-bit number stands for an unused slot and cannot be a mark";
    case WAL_REFUSED_SHARED_SLOT:
        return "shared slot: the slot is held by a shared registration and is released by a shared release";
    case WAL_REFUSED_NO_SUCH_MARK: return "no such mark: the mark is not registered with this slot and owner";
    case WAL_REFUSED_REGISTRY:
        return "registry: the mark has 65,535 holders already, or no record is empty: the registry is damaged";
    case WAL_REFUSED_CARD: return "card: the lock answers are not one for each slot, each 0, 1 or 2";
    case WAL_REFUSED_PROBE: return "probe: a reader's lock could not be asked";
    default: return "unknown";
    }
}

/* The header of the shared memory. Fresh: frame_index_blocks is the number of starting blocks, all else 0. */
struct wal_header {
    uint32_t frame_index_blocks;
    uint32_t frame_index_len;
    uint32_t frame_index_overflowed;
    uint64_t max_frame; /* the published frame */
    uint64_t nbackfills;
    uint64_t transaction_count;
    uint64_t visibility_generation;
    uint32_t checkpoint_seq;
    uint32_t checkpoint_epoch;
    uint32_t checksum_1;
    uint32_t checksum_2;
    uint64_t writer_owner;
    uint64_t checkpoint_owner;
};

/* A record of a process's registry of shared marks. With 0 holders it is empty. Fresh: all 0. */
struct wal_shared_read_mark {
    uint64_t mark;
    uint32_t slot;
    uint64_t owner;
    uint32_t holders;
};

/* An owner: the process id in the high 32 bits, the instance id in the low 32. 0 is no owner. */
uint64_t wal_owner_new(uint32_t pid, uint32_t instance_id);
uint32_t wal_owner_pid(uint64_t owner);
uint32_t wal_owner_instance_id(uint64_t owner);

/* --- The header ------------------------------------------------------------------------------------------------- */

/* Publishes a committed transaction: max_frame and transaction_count are raised to these numbers if those are
 * higher, the checksums stored if max_frame is at least the published one, visibility_generation raised by one. */
void wal_publish_commit(struct wal_header *header, uint64_t max_frame, uint32_t checksum_1, uint32_t checksum_2,
                        uint64_t transaction_count);

/* Stores how many frames are copied to the database file: after they are, under the checkpoint lock. */
void wal_publish_backfill(struct wal_header *header, uint64_t nbackfills);

/* Raise checkpoint_seq, answering the new number, and checkpoint_epoch, answering the old one. 4,294,967,295 goes
 * to 0. */
uint32_t wal_bump_checkpoint_seq(struct wal_header *header);
uint32_t wal_bump_checkpoint_epoch(struct wal_header *header);

/* A lock call's answer. answer: 1 if the lock was taken or released, else 0. local_owner: this process's own cell
 * for the lock, as the call leaves it. Store it. */
struct wal_lock_reply {
    uint32_t refusal;
    uint32_t answer;
    uint64_t local_owner;
};

/* Take the writer, or the checkpoint lock: answer 0 if it is held here (local_owner is not 0) or the card is not 1;
 * else the owner is stored in the header and in the own cell. Where the lock is held here its byte is not asked:
 * pass WAL_BUSY. A byte lock that was granted is freed where answer is 0. Refusals 9, 14. */
struct wal_lock_reply wal_try_acquire_writer(struct wal_header *header, uint64_t local_owner, uint64_t owner,
                                             uint8_t card);
struct wal_lock_reply wal_try_acquire_checkpoint(struct wal_header *header, uint64_t local_owner, uint64_t owner,
                                                 uint8_t card);

/* Release it: both cells become 0, and the byte lock is the caller's to free. WAL_PROCESS_SCOPED_FCNTL compares the
 * owner with the own cell. Refusals 1, 7, 8, 9. */
struct wal_lock_reply wal_release_writer(uint32_t mode, struct wal_header *header, uint64_t local_owner,
                                         uint64_t owner);
struct wal_lock_reply wal_release_checkpoint(uint32_t mode, struct wal_header *header, uint64_t local_owner,
                                             uint64_t owner);

/* --- The frame index -------------------------------------------------------------------------------------------- */

/* The answer of a record (1 stored, 0 dropped) or of a rollback (the length kept). */
struct wal_index_reply {
    uint32_t refusal;
    uint32_t answer;
};

/* Appends the entry (page_id, frame_id). Frame 1 with nothing published first empties the index. Dropped, with the
 * overflow flag set, if the capacity is reached, or the blocks are full and may not grow: grow is the file's answer
 * to a growth by one block, 0 for no. Refusals 1, 2, 3, 4.
 *
 * Once a frame is published no call empties the index, and a full one drops every further record. A frame that was
 * dropped must not be published: no lookup would find it. docs/LIFE-OF-A-FRAME.md says what a caller does ("A full
 * index"). */
struct wal_index_reply wal_record_frame(uint32_t capacity, uint32_t max_blocks, struct wal_header *header,
                                        uint64_t *pages, size_t pages_len, uint64_t *frames, size_t frames_len,
                                        uint16_t *hash, size_t hash_len, uint64_t page_id, uint64_t frame_id,
                                        uint32_t grow);

/* Drops entries from the end while the last frame is above max_frame. The overflow flag stays as it is. Refusals 1,
 * 2. */
struct wal_index_reply wal_rollback_frames(uint32_t capacity, uint32_t max_blocks, struct wal_header *header,
                                           const uint64_t *pages, size_t pages_len, const uint64_t *frames,
                                           size_t frames_len, uint16_t *hash, size_t hash_len, uint64_t max_frame);

/* found: 1 if there is a frame, and then frame is it; else both are 0. cells: how many hash cells the lookup looked at,
 * summed over the blocks that it probed; 0 where it probed none and where it was refused. The number is decided for
 * every call, on any memory. */
struct wal_find_reply {
    uint32_t refusal;
    uint32_t found;
    uint64_t frame;
    uint32_t cells;
};

/* The latest frame of a page from min_frame to max_frame. With a watermark (has_watermark not 0) that is the upper
 * bound and the lower one is 0; a watermark below min_frame finds nothing. Nothing changes. Refusals 1, 2.
 *
 * It probes blocks from the last visible one down to the one that answers. A probe looks at the cells from the page's
 * home on, up to the first that is empty or names an entry that is not visible, and that cell counts too. On an index
 * that grew from fresh by records and rollbacks it looks at 4,097 cells of a block at most, on any other memory at
 * 8,192. docs/LIFE-OF-A-FRAME.md says what the number tells ("When lookups are slow"). */
struct wal_find_reply wal_find_frame(uint32_t capacity, uint32_t max_blocks, struct wal_header header,
                                     const uint64_t *pages, size_t pages_len, const uint64_t *frames,
                                     size_t frames_len, const uint16_t *hash, size_t hash_len, uint64_t page_id,
                                     uint64_t min_frame, uint64_t max_frame, uint32_t has_watermark,
                                     uint64_t watermark);

/* found: 1 if there is a frame, and then frame is it; else both are 0. */
struct wal_frame_reply {
    uint32_t refusal;
    uint32_t found;
    uint64_t frame;
};

/* Whether a page was written from min_frame to max_frame, both included: a frame of the page between them, or none
 * exactly when there is none. Which of several frames is given is not decided, and no host may count on it: not on the
 * lowest or the latest one, and not on the same one at the next call or in the next version. Bounds in the wrong order
 * give none. Nothing changes. Refusals 1, 2.
 *
 * This call and wal_nearest_frame go by the entries: all below frame_index_len, published or not, also where damaged
 * frames do not rise. The hash is not lent, so neither what it holds nor how long it is matters. They look at one entry
 * after the other, and at every one where none fits; wal_find_frame is faster for a page's latest frame.
 * docs/LIFE-OF-A-FRAME.md says which call answers which question ("Was it written?"). */
struct wal_frame_reply wal_frame_between(uint32_t capacity, uint32_t max_blocks, struct wal_header header,
                                         const uint64_t *pages, size_t pages_len, const uint64_t *frames,
                                         size_t frames_len, uint64_t page_id, uint64_t min_frame, uint64_t max_frame);

/* The frame of a page that is nearest to to_frame, before it, after it or to_frame itself; the lower of two that are as
 * near. None if the page has no frame. The distance is the greater frame less the lower, up to 2^64 - 1. Nothing
 * changes. Refusals 1, 2. */
struct wal_frame_reply wal_nearest_frame(uint32_t capacity, uint32_t max_blocks, struct wal_header header,
                                         const uint64_t *pages, size_t pages_len, const uint64_t *frames,
                                         size_t frames_len, uint64_t page_id, uint64_t to_frame);

/* count: how many pairs were written. */
struct wal_list_reply {
    uint32_t refusal;
    uint64_t count;
};

/* Lists each page's latest frame up to max_frame, if it is at least min_frame, by rising page: pages to out_pages,
 * frames to out_frames. Cells past the pairs are not written. It uses less than 300 KB of stack. Refusals 1, 2, 5. */
struct wal_list_reply wal_iter_latest_frames(uint32_t capacity, uint32_t max_blocks, struct wal_header header,
                                             const uint64_t *pages, size_t pages_len, const uint64_t *frames,
                                             size_t frames_len, const uint16_t *hash, size_t hash_len,
                                             uint64_t min_frame, uint64_t max_frame, uint64_t *out_pages,
                                             size_t out_pages_len, uint64_t *out_frames, size_t out_frames_len);

/* --- Readers --------------------------------------------------------------------------------------------------------
 *
 * n is the number of slots. bitmap: (n + 63) / 64 words, bit i % 64 of word i / 64 is 1 where slot i is free;
 * fresh: those bits 1. reader_frames and reader_owners: n cells; fresh: WAL_UNUSED and 0. local_readers: this
 * process's own n cells, 0 where the slot is not held here. registry: this process's n records. card: n bytes,
 * WAL_BUSY where the slot is held here: the lock of such a slot is neither asked nor freed (see "Locks" above).
 *
 * A reader looks at max_frame and nbackfills of the header and registers in one turn: as a reader of the database
 * file if all published frames are copied (nbackfills equals max_frame), and else at max_frame, the published
 * frame. */

/* taken: 1 if the reader has a slot; then slot, owner and mark are its number, its owner and its mark. Else all are
 * 0. */
struct wal_reader_reply {
    uint32_t refusal;
    uint32_t taken;
    uint64_t slot;
    uint64_t owner;
    uint64_t mark;
};

/* Takes the lowest free slot that is granted and not held here, and if there is none reclaims the slots of dead
 * readers and tries again. Nothing is written if none is taken. The lock of the slot that the answer names is kept
 * while the slot is held; all others that the card was granted are freed. Refusals 1, 2, 9, 10, 14. */
struct wal_reader_reply wal_register_reader(size_t n, uint32_t mode, uint64_t *bitmap, size_t bitmap_len,
                                            uint64_t *reader_frames, size_t reader_frames_len,
                                            uint64_t *reader_owners, size_t reader_owners_len,
                                            uint64_t *local_readers, size_t local_readers_len, const uint8_t *card,
                                            size_t card_len, uint64_t owner, uint64_t mark);

/* Moves a reader to another mark. Refusals 1, 2, 6, 8, 9, 10, 11. */
struct wal_reader_reply wal_update_reader(size_t n, uint64_t *reader_frames, size_t reader_frames_len,
                                          const uint64_t *reader_owners, size_t reader_owners_len,
                                          const struct wal_shared_read_mark *registry, size_t registry_len,
                                          size_t slot, uint64_t owner, uint64_t mark);

/* Releases a reader's slot, whose lock is then the caller's to free. Answers 0 or the refusal: 1, 2, 6, 7, 8, 9,
 * 11. */
uint32_t wal_unregister_reader(size_t n, uint32_t mode, uint64_t *bitmap, size_t bitmap_len, uint64_t *reader_frames,
                               size_t reader_frames_len, uint64_t *reader_owners, size_t reader_owners_len,
                               uint64_t *local_readers, size_t local_readers_len,
                               const struct wal_shared_read_mark *registry, size_t registry_len, size_t slot,
                               uint64_t owner);

/* Takes a slot at a mark, or joins the connections of this process that share the mark already: the answer is then the
 * first holder's slot and owner, and every lock that the card was granted is freed: that slot was held here before and
 * its lock not asked. Refusals 1, 2, 9, 10, 13, 14. */
struct wal_reader_reply wal_register_reader_for_snapshot(
    size_t n, uint32_t mode, uint64_t *bitmap, size_t bitmap_len, uint64_t *reader_frames, size_t reader_frames_len,
    uint64_t *reader_owners, size_t reader_owners_len, uint64_t *local_readers, size_t local_readers_len,
    struct wal_shared_read_mark *registry, size_t registry_len, const uint8_t *card, size_t card_len, uint64_t owner,
    uint64_t mark);

/* The same at mark 0: a reader of the database file alone, for whom all published frames are copied. While one is
 * live, wal_copy_back_limit allows no further frame to be copied. Refusals 1, 2, 9, 13, 14. */
struct wal_reader_reply wal_register_db_file_reader(
    size_t n, uint32_t mode, uint64_t *bitmap, size_t bitmap_len, uint64_t *reader_frames, size_t reader_frames_len,
    uint64_t *reader_owners, size_t reader_owners_len, uint64_t *local_readers, size_t local_readers_len,
    struct wal_shared_read_mark *registry, size_t registry_len, const uint8_t *card, size_t card_len, uint64_t owner);

/* Releases a shared mark: a holder less, and the last one empties the slot. The slot's lock is the caller's to free
 * when its own cell has become 0. Answers 0 or the refusal: 1, 2, 6, 7, 8, 9, 10, 12. */
uint32_t wal_unregister_reader_for_snapshot(size_t n, uint32_t mode, uint64_t *bitmap, size_t bitmap_len,
                                            uint64_t *reader_frames, size_t reader_frames_len,
                                            uint64_t *reader_owners, size_t reader_owners_len,
                                            uint64_t *local_readers, size_t local_readers_len,
                                            struct wal_shared_read_mark *registry, size_t registry_len, uint64_t mark,
                                            size_t slot, uint64_t owner);

/* found: 1 if there is a floor, and then mark is it; else both are 0. */
struct wal_floor_reply {
    uint32_t refusal;
    uint32_t found;
    uint64_t mark;
};

/* The floor: the least mark above 0 that is still held, by slots held here (which are not asked) or in other
 * processes. Slots of dead readers that it meets are reclaimed. All locks that the card was granted are freed.
 * Refusals 1, 2, 14, 15. */
struct wal_floor_reply wal_min_active_reader_frame(size_t n, uint32_t mode, uint64_t *bitmap, size_t bitmap_len,
                                                   uint64_t *reader_frames, size_t reader_frames_len,
                                                   uint64_t *reader_owners, size_t reader_owners_len,
                                                   const uint64_t *local_readers, size_t local_readers_len,
                                                   const uint8_t *card, size_t card_len);

struct wal_limit_reply {
    uint32_t refusal;
    uint64_t limit;
};

/* The copy-back limit: no frame above it may be copied to the database file. It is the lesser of max_frame, the
 * published frame, and the floor; max_frame if there is no floor. While a live reader, in any process, reads only the
 * database file (mark 0), it is the lesser of that and nbackfills, the number of frames already copied: such a reader
 * must not see a page change. It reclaims and refuses as the floor does, and all locks that the card was granted are
 * freed. max_frame and nbackfills are the header's, in this order.
 *
 * Frames are to be copied if the limit is above nbackfills, and nothing is if it is not, or if the call was refused. The
 * call, the copying and wal_publish_backfill stand in one turn, under the checkpoint lock: so no reader of the database
 * file registers in between. docs/LIFE-OF-A-FRAME.md says when the turn may be given up to copy. */
struct wal_limit_reply wal_copy_back_limit(size_t n, uint32_t mode, uint64_t max_frame, uint64_t nbackfills,
                                           uint64_t *bitmap, size_t bitmap_len, uint64_t *reader_frames,
                                           size_t reader_frames_len, uint64_t *reader_owners,
                                           size_t reader_owners_len, const uint64_t *local_readers,
                                           size_t local_readers_len, const uint8_t *card, size_t card_len);

/* active: 1 if some live reader, in any process, reads only the database file. */
struct wal_db_file_reply {
    uint32_t refusal;
    uint32_t active;
};

/* Asked before the log begins anew: the memory is made fresh only where no reader is left. (Before frames are copied
 * wal_copy_back_limit alone is asked.) It stops at the first such reader; slots of dead readers that it meets before are
 * reclaimed. All locks that the card was granted are freed. Refusals 1, 2, 14, 15. */
struct wal_db_file_reply wal_has_active_db_file_reader(size_t n, uint32_t mode, uint64_t *bitmap, size_t bitmap_len,
                                                       uint64_t *reader_frames, size_t reader_frames_len,
                                                       uint64_t *reader_owners, size_t reader_owners_len,
                                                       const uint64_t *local_readers, size_t local_readers_len,
                                                       const uint8_t *card, size_t card_len);

/* --- Layout ---------------------------------------------------------------------------------------------------------
 *
 * The byte at which the library has each field, and the size of each struct. Under flags or pragmas that pack structs
 * in another way a host would lend and read other cells than it means to: there this header does not compile. */

#if defined(__cplusplus) && __cplusplus >= 201103L
#define WAL_LAYOUT(what, bytes) static_assert((what) == (bytes), #what " is not " #bytes)
#elif !defined(__cplusplus) && defined(__STDC_VERSION__) && __STDC_VERSION__ >= 201112L
#define WAL_LAYOUT(what, bytes) _Static_assert((what) == (bytes), #what " is not " #bytes)
#else /* before C11 and C++11: no array has a negative size; each has its line's name */
#define WAL_LAYOUT_NAMED(line, what, bytes) typedef char wal_layout_##line[(what) == (bytes) ? 1 : -1]
#define WAL_LAYOUT_ON(line, what, bytes) WAL_LAYOUT_NAMED(line, what, bytes)
#define WAL_LAYOUT(what, bytes) WAL_LAYOUT_ON(__LINE__, what, bytes)
#endif

WAL_LAYOUT(sizeof(size_t), 8);
WAL_LAYOUT(offsetof(struct wal_header, frame_index_blocks), 0);
WAL_LAYOUT(offsetof(struct wal_header, frame_index_len), 4);
WAL_LAYOUT(offsetof(struct wal_header, frame_index_overflowed), 8);
WAL_LAYOUT(offsetof(struct wal_header, max_frame), 16);
WAL_LAYOUT(offsetof(struct wal_header, nbackfills), 24);
WAL_LAYOUT(offsetof(struct wal_header, transaction_count), 32);
WAL_LAYOUT(offsetof(struct wal_header, visibility_generation), 40);
WAL_LAYOUT(offsetof(struct wal_header, checkpoint_seq), 48);
WAL_LAYOUT(offsetof(struct wal_header, checkpoint_epoch), 52);
WAL_LAYOUT(offsetof(struct wal_header, checksum_1), 56);
WAL_LAYOUT(offsetof(struct wal_header, checksum_2), 60);
WAL_LAYOUT(offsetof(struct wal_header, writer_owner), 64);
WAL_LAYOUT(offsetof(struct wal_header, checkpoint_owner), 72);
WAL_LAYOUT(sizeof(struct wal_header), 80);
WAL_LAYOUT(offsetof(struct wal_shared_read_mark, mark), 0);
WAL_LAYOUT(offsetof(struct wal_shared_read_mark, slot), 8);
WAL_LAYOUT(offsetof(struct wal_shared_read_mark, owner), 16);
WAL_LAYOUT(offsetof(struct wal_shared_read_mark, holders), 24);
WAL_LAYOUT(sizeof(struct wal_shared_read_mark), 32);
WAL_LAYOUT(offsetof(struct wal_lock_reply, refusal), 0);
WAL_LAYOUT(offsetof(struct wal_lock_reply, answer), 4);
WAL_LAYOUT(offsetof(struct wal_lock_reply, local_owner), 8);
WAL_LAYOUT(sizeof(struct wal_lock_reply), 16);
WAL_LAYOUT(offsetof(struct wal_index_reply, refusal), 0);
WAL_LAYOUT(offsetof(struct wal_index_reply, answer), 4);
WAL_LAYOUT(sizeof(struct wal_index_reply), 8);
WAL_LAYOUT(offsetof(struct wal_find_reply, refusal), 0);
WAL_LAYOUT(offsetof(struct wal_find_reply, found), 4);
WAL_LAYOUT(offsetof(struct wal_find_reply, frame), 8);
WAL_LAYOUT(offsetof(struct wal_find_reply, cells), 16);
WAL_LAYOUT(sizeof(struct wal_find_reply), 24);
WAL_LAYOUT(offsetof(struct wal_frame_reply, refusal), 0);
WAL_LAYOUT(offsetof(struct wal_frame_reply, found), 4);
WAL_LAYOUT(offsetof(struct wal_frame_reply, frame), 8);
WAL_LAYOUT(sizeof(struct wal_frame_reply), 16);
WAL_LAYOUT(offsetof(struct wal_list_reply, refusal), 0);
WAL_LAYOUT(offsetof(struct wal_list_reply, count), 8);
WAL_LAYOUT(sizeof(struct wal_list_reply), 16);
WAL_LAYOUT(offsetof(struct wal_reader_reply, refusal), 0);
WAL_LAYOUT(offsetof(struct wal_reader_reply, taken), 4);
WAL_LAYOUT(offsetof(struct wal_reader_reply, slot), 8);
WAL_LAYOUT(offsetof(struct wal_reader_reply, owner), 16);
WAL_LAYOUT(offsetof(struct wal_reader_reply, mark), 24);
WAL_LAYOUT(sizeof(struct wal_reader_reply), 32);
WAL_LAYOUT(offsetof(struct wal_floor_reply, refusal), 0);
WAL_LAYOUT(offsetof(struct wal_floor_reply, found), 4);
WAL_LAYOUT(offsetof(struct wal_floor_reply, mark), 8);
WAL_LAYOUT(sizeof(struct wal_floor_reply), 16);
WAL_LAYOUT(offsetof(struct wal_limit_reply, refusal), 0);
WAL_LAYOUT(offsetof(struct wal_limit_reply, limit), 8);
WAL_LAYOUT(sizeof(struct wal_limit_reply), 16);
WAL_LAYOUT(offsetof(struct wal_db_file_reply, refusal), 0);
WAL_LAYOUT(offsetof(struct wal_db_file_reply, active), 4);
WAL_LAYOUT(sizeof(struct wal_db_file_reply), 8);

#undef WAL_LAYOUT
#undef WAL_LAYOUT_ON
#undef WAL_LAYOUT_NAMED

#ifdef __cplusplus
}
#endif

#endif

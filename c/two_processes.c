/* Processes that share one mapped file, with real byte locks: locks of an open file description (Linux). The first
 * process makes the file, starts a writer and two readers, tells them by lines on a pipe what to do, and prints what
 * they answer. One reader is killed while it holds a slot. The part for hosts to read is "Cards": which locks are
 * asked for a call and which are freed after it. Run by c/test. */
#define _GNU_SOURCE /* F_OFD_SETLK */
#include <errno.h>
#include <fcntl.h>
#include <inttypes.h>
#include <limits.h>
#include <signal.h>
#include <stdio.h>
#include <stdlib.h>
#include <string.h>
#include <sys/mman.h>
#include <sys/wait.h>
#include <unistd.h>

#include "wal_coordination.h"

enum { CAPACITY = 6, BLOCKS = 1, SLOTS = 2, MODE = WAL_LINUX_OFD };

/* The file's layout is this example's own. After the memory come bytes that are only locked. */
struct shared {
    struct wal_header header;
    uint64_t bitmap[(SLOTS + 63) / 64];
    uint64_t reader_frames[SLOTS], reader_owners[SLOTS];
    uint64_t pages[BLOCKS * WAL_BLOCK_ENTRIES], frames[BLOCKS * WAL_BLOCK_ENTRIES];
    uint16_t hash[BLOCKS * WAL_BLOCK_HASH_CELLS];
};

enum { TURN, WRITER, CHECKPOINT, READER /* of slot 0, then of the others */ };

/* A process's one mapping and one open file description, its own cells and its registry. */
static struct shared *shared;
static int file;
static uint64_t local_readers[SLOTS], local_writer, local_checkpoint;
static struct wal_shared_read_mark registry[SLOTS];

static uint64_t owner;
static struct wal_reader_reply reader; /* what this process's reader holds */
static int locks_fail;                 /* in the story: this process cannot ask the locks of slots */

#define INDEX                                                                                            \
    shared->pages, BLOCKS *WAL_BLOCK_ENTRIES, shared->frames, BLOCKS *WAL_BLOCK_ENTRIES, shared->hash, \
        BLOCKS *WAL_BLOCK_HASH_CELLS
#define READERS                                                                                      \
    shared->bitmap, sizeof shared->bitmap / 8, shared->reader_frames, SLOTS, shared->reader_owners, \
        SLOTS, local_readers, SLOTS

static void fail(const char *what) {
    perror(what);
    exit(1);
}

/* --- The file and its locks ------------------------------------------------------------------------------------- */

/* Every process opens the file for itself, after the fork: a description that came from its parent would be the same
 * one, with the same locks. It is opened once: each open makes a description that locks the others out. */
static void open_file(const char *path) {
    file = open(path, O_RDWR | O_CLOEXEC);
    if (file < 0)
        fail(path);
    shared = mmap(NULL, sizeof *shared, PROT_READ | PROT_WRITE, MAP_SHARED, file, 0);
    if (shared == MAP_FAILED)
        fail("mmap");
}

static int set_lock(int command, short type, off_t byte) {
    struct flock lock = {.l_type = type, .l_whence = SEEK_SET, .l_start = (off_t)sizeof *shared + byte, .l_len = 1};
    return fcntl(file, command, &lock);
}

/* Asks for a lock, without waiting. A description is granted what it holds already, so a lock that is held here is
 * never asked. */
static uint8_t try_lock(off_t byte) {
    if (locks_fail && byte >= READER)
        return WAL_LOCK_ERROR;
    if (set_lock(F_OFD_SETLK, F_WRLCK, byte) == 0)
        return WAL_GRANTED;
    return errno == EAGAIN || errno == EACCES ? WAL_BUSY : WAL_LOCK_ERROR;
}

static void free_lock(off_t byte) {
    if (set_lock(F_OFD_SETLK, F_UNLCK, byte) != 0)
        fail("unlock");
}

/* One process at a time has a turn, and makes its calls in it. Threads of one process would both be granted this lock:
 * they need a mutex besides. */
static void take_turn(void) {
    while (set_lock(F_OFD_SETLKW, F_WRLCK, TURN) != 0)
        if (errno != EINTR)
            fail("turn");
}

static void give_turn(void) {
    free_lock(TURN);
}

/* --- Cards ------------------------------------------------------------------------------------------------------ */

static int held_here(size_t slot) {
    return local_readers[slot] != 0;
}

static int is_free(size_t slot) {
    return shared->bitmap[slot / 64] >> (slot % 64) & 1;
}

/* For a registration: free slots are asked in order until one is granted, which is the one that the call takes. Only
 * if none is, those that others hold, or have died with. Slots held here and slots not asked stand as busy. */
static void registration_card(uint8_t card[SLOTS]) {
    memset(card, WAL_BUSY, SLOTS);
    for (int free_ones = 1; free_ones >= 0; free_ones--)
        for (size_t slot = 0; slot < SLOTS; slot++)
            if (is_free(slot) == free_ones && !held_here(slot)) {
                card[slot] = try_lock(READER + (off_t)slot);
                if (free_ones && card[slot] == WAL_GRANTED)
                    return;
            }
}

/* For a floor, a limit and the question for database file readers: slots with a reader that is not held here. */
static void probe_card(uint8_t card[SLOTS]) {
    memset(card, WAL_BUSY, SLOTS);
    for (size_t slot = 0; slot < SLOTS; slot++)
        if (shared->reader_frames[slot] != WAL_UNUSED && !held_here(slot))
            card[slot] = try_lock(READER + (off_t)slot);
}

/* After the call, accepted or refused: what the card was granted is freed, but for the slot that the answer names. */
static void free_card(const uint8_t card[SLOTS], const struct wal_reader_reply *answer) {
    for (size_t slot = 0; slot < SLOTS; slot++)
        if (card[slot] == WAL_GRANTED && !(answer && answer->taken && answer->slot == slot))
            free_lock(READER + (off_t)slot);
}

/* --- Readers ---------------------------------------------------------------------------------------------------- */

/* Begins to read. What is published and what is copied is looked at in the turn in which the reader is registered: if
 * all frames are copied, it reads the database file alone, and else up to the published frame. */
static struct wal_reader_reply begin_read(void) {
    uint8_t card[SLOTS];
    registration_card(card);
    int all_copied = shared->header.nbackfills == shared->header.max_frame;
    struct wal_reader_reply r =
        all_copied ? wal_register_db_file_reader(SLOTS, MODE, READERS, registry, SLOTS, card, SLOTS, owner)
                   : wal_register_reader_for_snapshot(SLOTS, MODE, READERS, registry, SLOTS, card, SLOTS, owner,
                                                      shared->header.max_frame);
    free_card(card, &r);
    if (r.taken)
        reader = r;
    return r;
}

/* Ends it. The slot's lock is freed when the last holder's release has emptied the own cell. */
static uint32_t end_read(void) {
    uint32_t refusal = wal_unregister_reader_for_snapshot(SLOTS, MODE, READERS, registry, SLOTS, reader.mark,
                                                          reader.slot, reader.owner);
    if (refusal == 0 && !held_here(reader.slot))
        free_lock(READER + (off_t)reader.slot);
    return refusal;
}

static struct wal_floor_reply min_mark(void) {
    uint8_t card[SLOTS];
    probe_card(card);
    struct wal_floor_reply r = wal_min_active_reader_frame(SLOTS, MODE, READERS, card, SLOTS);
    free_card(card, NULL);
    return r;
}

static struct wal_limit_reply limit(void) {
    uint8_t card[SLOTS];
    probe_card(card);
    struct wal_limit_reply r =
        wal_copy_back_limit(SLOTS, MODE, shared->header.max_frame, shared->header.nbackfills, READERS, card, SLOTS);
    free_card(card, NULL);
    return r;
}

static struct wal_db_file_reply db_file_reader(void) {
    uint8_t card[SLOTS];
    probe_card(card);
    struct wal_db_file_reply r = wal_has_active_db_file_reader(SLOTS, MODE, READERS, card, SLOTS);
    free_card(card, NULL);
    return r;
}

/* --- Writing and copying back ----------------------------------------------------------------------------------- */

/* The two locks: the byte is asked only where the lock is not held here, and freed where the call did not take it. */
static int acquire(struct wal_lock_reply (*call)(struct wal_header *, uint64_t, uint64_t, uint8_t), uint64_t *own,
                   off_t byte) {
    uint8_t card = *own == 0 ? try_lock(byte) : WAL_BUSY;
    struct wal_lock_reply r = call(&shared->header, *own, owner, card);
    *own = r.local_owner;
    if (card == WAL_GRANTED && r.answer == 0)
        free_lock(byte);
    return r.answer == 1;
}

static void release(struct wal_lock_reply (*call)(uint32_t, struct wal_header *, uint64_t, uint64_t), uint64_t *own,
                    off_t byte) {
    struct wal_lock_reply r = call(MODE, &shared->header, *own, owner);
    *own = r.local_owner;
    if (r.refusal == 0)
        free_lock(byte);
}

/* Copies frames back, as far as readers allow, and publishes how many are copied. The limit, the copying and the
 * publishing stand in one turn, under the checkpoint lock. While a reader reads the database file alone, the limit is not
 * above what is copied already; nothing new is copied then, or if the limit was refused. */
static void copy_back(FILE *out) {
    if (!acquire(wal_try_acquire_checkpoint, &local_checkpoint, CHECKPOINT)) {
        fprintf(out, "no checkpoint lock\n");
        return;
    }
    struct wal_limit_reply upto = limit();
    if (upto.refusal != 0)
        fprintf(out, "nothing copied: refused %" PRIu32 "\n", upto.refusal);
    else {
        if (upto.limit > shared->header.nbackfills)
            /* Here a host copies the frames nbackfills + 1 to upto.limit into the database file, and syncs it. */
            wal_publish_backfill(&shared->header, upto.limit);
        fprintf(out, "%" PRIu64 " copied\n", shared->header.nbackfills);
    }
    release(wal_release_checkpoint, &local_checkpoint, CHECKPOINT);
}

static void make_fresh(void) {
    memset(&shared->header, 0, sizeof shared->header);
    shared->header.frame_index_blocks = BLOCKS;
    memset(shared->hash, 0, sizeof shared->hash);
    memset(shared->bitmap, 0, sizeof shared->bitmap);
    for (size_t slot = 0; slot < SLOTS; slot++) {
        shared->bitmap[slot / 64] |= UINT64_C(1) << (slot % 64);
        shared->reader_frames[slot] = WAL_UNUSED;
        shared->reader_owners[slot] = 0;
    }
}

/* Starts the log again, with fresh memory: in one turn in which all is copied and nobody holds a slot or a lock. The
 * counters go on. */
static void start_again(FILE *out) {
    struct wal_db_file_reply file_readers = db_file_reader();
    struct wal_floor_reply floor = min_mark();
    if (file_readers.refusal != 0 || file_readers.active || floor.refusal != 0 || floor.found ||
        shared->header.nbackfills != shared->header.max_frame ||
        !acquire(wal_try_acquire_writer, &local_writer, WRITER)) {
        fprintf(out, "not now\n");
        return;
    }
    int nobody_copies = acquire(wal_try_acquire_checkpoint, &local_checkpoint, CHECKPOINT);
    if (nobody_copies)
        release(wal_release_checkpoint, &local_checkpoint, CHECKPOINT);
    release(wal_release_writer, &local_writer, WRITER);
    if (nobody_copies) {
        struct wal_header before = shared->header;
        make_fresh();
        shared->header.transaction_count = before.transaction_count;
        shared->header.visibility_generation = before.visibility_generation;
        shared->header.checkpoint_seq = before.checkpoint_seq;
        shared->header.checkpoint_epoch = before.checkpoint_epoch;
        wal_bump_checkpoint_seq(&shared->header);
    }
    fprintf(out, nobody_copies ? "fresh\n" : "not now\n");
}

/* --- The processes ---------------------------------------------------------------------------------------------- */

static void told_slot(FILE *out, struct wal_reader_reply r) {
    if (r.refusal != 0)
        fprintf(out, "refused %" PRIu32 "\n", r.refusal);
    else if (r.taken == 0)
        fprintf(out, "no slot\n");
    else if (r.mark == 0)
        fprintf(out, "slot %" PRIu64 ", the database file alone\n", r.slot);
    else
        fprintf(out, "slot %" PRIu64 ", frames up to %" PRIu64 "\n", r.slot, r.mark);
}

static void told_index(FILE *out, struct wal_index_reply r, const char *done, const char *not_done) {
    if (r.refusal != 0)
        fprintf(out, "refused %" PRIu32 "\n", r.refusal);
    else
        fprintf(out, "%s\n", r.answer != 0 ? done : not_done);
}

static void told_find(FILE *out, struct wal_find_reply r) {
    if (r.refusal != 0)
        fprintf(out, "refused %" PRIu32 "\n", r.refusal);
    else if (r.found)
        fprintf(out, "frame %" PRIu64 "\n", r.frame);
    else
        fprintf(out, "none: the page is in the database file\n");
}

static void told_floor(FILE *out, struct wal_floor_reply r) {
    if (r.refusal != 0)
        fprintf(out, "refused %" PRIu32 "\n", r.refusal);
    else if (r.found)
        fprintf(out, "%" PRIu64 "\n", r.mark);
    else
        fprintf(out, "none\n");
}

static void told_limit(FILE *out, struct wal_limit_reply r) {
    if (r.refusal != 0)
        fprintf(out, "refused %" PRIu32 "\n", r.refusal);
    else
        fprintf(out, "%" PRIu64 "\n", r.limit);
}

static void told_slots(FILE *out) {
    int used = 0;
    for (size_t slot = 0; slot < SLOTS; slot++)
        used += shared->reader_frames[slot] != WAL_UNUSED;
    fprintf(out, "%d in use\n", used);
}

/* One thing that a process is told to do, in its turn. */
static void act(FILE *out, const char *word, uint64_t first, uint64_t second) {
    if (strcmp(word, "write") == 0)
        fprintf(out, acquire(wal_try_acquire_writer, &local_writer, WRITER) ? "is the writer\n" : "another writes\n");
    else if (strcmp(word, "unlock") == 0) {
        release(wal_release_writer, &local_writer, WRITER);
        fprintf(out, "is the writer no more\n");
    } else if (strcmp(word, "record") == 0)
        told_index(out, wal_record_frame(CAPACITY, BLOCKS, &shared->header, INDEX, first, second, 0), "stored",
                   "dropped");
    else if (strcmp(word, "rollback") == 0)
        told_index(out, wal_rollback_frames(CAPACITY, BLOCKS, &shared->header, INDEX, first), "rolled back",
                   "emptied");
    else if (strcmp(word, "commit") == 0) {
        wal_publish_commit(&shared->header, first, 0, 0, shared->header.transaction_count + 1);
        fprintf(out, "published\n");
    } else if (strcmp(word, "begin") == 0)
        told_slot(out, begin_read());
    else if (strcmp(word, "find") == 0)
        told_find(out, wal_find_frame(CAPACITY, BLOCKS, shared->header, INDEX, first, 1, reader.mark, 0, 0));
    else if (strcmp(word, "end") == 0)
        fprintf(out, end_read() == 0 ? "released\n" : "refused\n");
    else if (strcmp(word, "floor") == 0)
        told_floor(out, min_mark());
    else if (strcmp(word, "limit") == 0)
        told_limit(out, limit());
    else if (strcmp(word, "copy") == 0)
        copy_back(out);
    else if (strcmp(word, "again") == 0)
        start_again(out);
    else if (strcmp(word, "slots") == 0)
        told_slots(out);
    else if (strcmp(word, "fail") == 0 || strcmp(word, "mend") == 0) {
        locks_fail = strcmp(word, "fail") == 0;
        fprintf(out, locks_fail ? "its locks fail\n" : "its locks work\n");
    } else
        fprintf(out, "?\n");
}

/* Does what the lines say until there are no more. */
static void serve(const char *path, FILE *in, FILE *out) {
    char line[64], word[16];
    open_file(path);
    owner = wal_owner_new((uint32_t)getpid(), 1);
    while (fgets(line, sizeof line, in)) {
        uint64_t first = 0, second = 0;
        if (sscanf(line, "%15s %" SCNu64 " %" SCNu64, word, &first, &second) < 1)
            continue;
        take_turn();
        act(out, word, first, second);
        give_turn();
        fflush(out);
    }
}

/* A started process and the pipes to it. */
static struct other {
    const char *name;
    pid_t process;
    FILE *ask, *answers;
} others[4];

static struct other *start(const char *name, const char *path) {
    struct other *other = others;
    while (other->name)
        other++;
    int to[2], from[2];
    fflush(stdout);
    if (pipe(to) != 0 || pipe(from) != 0)
        fail("pipe");
    pid_t process = fork();
    if (process < 0)
        fail("fork");
    if (process == 0) {
        /* The others end when the first process closes their pipes: this one must not keep them open. */
        for (struct other *earlier = others; earlier < other; earlier++) {
            fclose(earlier->ask);
            fclose(earlier->answers);
        }
        close(to[1]);
        close(from[0]);
        serve(path, fdopen(to[0], "r"), fdopen(from[1], "w"));
        _exit(0);
    }
    close(to[0]);
    close(from[1]);
    *other = (struct other){name, process, fdopen(to[1], "w"), fdopen(from[0], "r")};
    return other;
}

/* Has it do something, and prints what it was told and what it answers. */
static void tell(struct other *other, const char *words) {
    char answer[64] = "";
    fprintf(other->ask, "%s\n", words);
    fflush(other->ask);
    if (!fgets(answer, sizeof answer, other->answers))
        fail(other->name);
    printf("%-8s  %-13s %s", other->name, words, answer);
}

static void finish(struct other *other) {
    fclose(other->ask);
    fclose(other->answers);
    waitpid(other->process, NULL, 0);
}

/* The kernel frees the locks of a process that ends, however it ends. */
static void killed(struct other *other) {
    kill(other->process, SIGKILL);
    waitpid(other->process, NULL, 0);
    printf("%-8s  is killed\n", other->name);
}

static void story(const char *path) {
    struct other *writer = start("writer", path), *one = start("reader 1", path), *two = start("reader 2", path);
    tell(writer, "write");
    tell(writer, "record 7 1");
    tell(writer, "record 8199 2");
    tell(writer, "record 7 3");
    tell(writer, "commit 3");

    /* Reader 1 holds mark 3. Its own floors and limits do not ask its own lock: the hold stays. */
    tell(one, "begin");
    tell(one, "floor");
    tell(one, "limit");
    tell(writer, "floor");
    tell(writer, "record 7 4");
    tell(writer, "commit 4");
    tell(one, "find 7");
    tell(writer, "copy");

    /* Reader 2 sees what is new. Both slots are taken: a second registration of reader 1 finds none, and does not ask
     * for the lock that it holds itself. */
    tell(two, "begin");
    tell(two, "find 7");
    tell(one, "begin");
    tell(writer, "floor");

    /* Reader 2 dies with its slot held. The next floor finds its lock free, reclaims the slot and frees the lock. */
    tell(writer, "slots");
    killed(two);
    tell(writer, "floor");
    tell(writer, "slots");
    struct other *three = start("reader 3", path);
    tell(three, "begin");
    tell(three, "end");
    finish(three);

    /* Locks that cannot be asked: no slot is given, nothing is copied, and nothing is lost. */
    tell(writer, "fail");
    tell(writer, "floor");
    tell(writer, "copy");
    tell(writer, "begin");
    tell(writer, "mend");
    tell(writer, "floor");
    tell(one, "end");
    tell(writer, "copy");

    /* All is copied: a reader needs the database file alone. While it reads, nothing new is copied. */
    tell(one, "begin");
    tell(writer, "record 9 5");
    tell(writer, "commit 5");
    tell(writer, "limit");
    tell(writer, "copy");
    tell(one, "write");

    /* The index is full. The transaction is given up; when all is copied and nobody reads, the log begins again. */
    tell(writer, "record 9 6");
    tell(writer, "record 7 7");
    tell(writer, "rollback 5");
    tell(writer, "unlock");
    tell(writer, "again");
    tell(one, "end");
    tell(writer, "copy");
    tell(writer, "again");
    tell(writer, "write");
    tell(writer, "record 9 1");
    tell(writer, "commit 1");
    tell(writer, "begin");
    tell(writer, "find 9");
    finish(writer);
    finish(one);
}

int main(void) {
    const char *folder = getenv("TMPDIR");
    char path[PATH_MAX];
    int length = snprintf(path, sizeof path, "%s/wal_coordination-XXXXXX", folder && *folder ? folder : P_tmpdir);
    if (length < 0 || (size_t)length >= sizeof path) {
        fprintf(stderr, "TMPDIR is too long\n");
        return 1;
    }
    int made = mkstemp(path);
    if (made < 0 || ftruncate(made, sizeof *shared) != 0)
        fail(path);
    close(made);
    open_file(path);
    make_fresh();
    munmap(shared, sizeof *shared);
    close(file);
    story(path);
    unlink(path);
    return 0;
}

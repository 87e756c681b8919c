/* The searches over the entries in plain C. The Rust has no such calls, so these loops are what the port's are held
 * against. They do the whole work: frames may lie in any order, as in the port. Settings and lengths alone are not
 * looked at.
 *
 * A loop of so few instructions takes twice as long where it lies across a multiple of 64 bytes. build.rs has gcc begin
 * functions and loops at such multiples, so that the times do not depend on where the linker puts them. */
#include "wal_coordination.h"

struct plain_found {
    uint64_t found; /* 1 or 0 */
    uint64_t frame;
};

/* A frame of the page between the bounds, both included: of the last entry that fits. */
struct plain_found plain_between(const struct wal_header *header, const uint64_t *pages, const uint64_t *frames,
                                 uint64_t page, uint64_t min_frame, uint64_t max_frame)
{
    for (size_t n = header->frame_index_len; n > 0;) {
        if (pages[--n] != page)
            continue;
        uint64_t frame = frames[n];
        if (frame >= min_frame && frame <= max_frame)
            return (struct plain_found){1, frame};
    }
    return (struct plain_found){0, 0};
}

/* The nearest frame of the page, the lower of two that are as near. */
struct plain_found plain_nearest(const struct wal_header *header, const uint64_t *pages, const uint64_t *frames,
                                 uint64_t page, uint64_t to_frame)
{
    struct plain_found nearest = {0, 0};
    uint64_t least = UINT64_MAX;
    for (size_t n = 0, len = header->frame_index_len; n < len; n++) {
        while (pages[n] != page)
            if (++n == len)
                return nearest;
        uint64_t frame = frames[n], away = frame < to_frame ? to_frame - frame : frame - to_frame;
        if (!nearest.found || away < least || (away == least && frame < nearest.frame)) {
            nearest = (struct plain_found){1, frame};
            least = away;
        }
    }
    return nearest;
}

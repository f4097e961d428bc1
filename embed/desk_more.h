/* What stands beside the archive and is optional: readers of a mark and of a listed row (here), a sentence for each refusal (desk_messages.c), a writer of bags and a reader of lists
   (desk_bags.c), a writer of the requests of a tally and readers of its counts (desk_tallies.c), a writer of the vocabularies and action lists of locks (desk_locks.c). Like the desk
   they need no heap, no globals and of a C library memcpy alone. They are ordinary C, not proved; embed/run tests them. */
#ifndef DESK_MORE_H
#define DESK_MORE_H
#include "desk_slices.h"
#ifdef __cplusplus
extern "C" {
#endif

/* ---- marks and listed rows */

/* Whether a mark says that a policy is satisfied, the first policy being 1; false where there is no such policy. */
static inline bool desk_marked(uint64_t mark, size_t policy) { return policy >= 1 && policy <= DESK_MOST_POLICIES && (mark >> (policy - 1) & 1) != 0; }

/* A listed row, read from its DESK_ROW_BYTES bytes: its number, outcome, policy and mark. */
typedef struct {
    uint32_t number;
    uint32_t outcome;
    size_t policy;
    uint64_t mark;
} DeskRow;
static inline DeskRow desk_row(const uint8_t *bytes) {
    DeskRow row = {0, bytes[4], bytes[5], 0};
    for (unsigned i = 0; i < 4; i++) row.number |= (uint32_t)bytes[i] << 8 * i;
    for (unsigned i = 0; i < 8; i++) row.mark |= (uint64_t)bytes[6 + i] << 8 * i;
    return row;
}

/* ---- desk_messages.c */

/* What a refusal says, as a sentence in English. */
const char *desk_message(uint32_t refusal);

/* ---- desk_bags.c */

/* A bag that is being written into memory that the caller lends. Between two calls, bytes and length are a bag. */
typedef struct {
    uint8_t *bytes;
    size_t room;
    size_t length;
} DeskBagWriter;

/* What a call of a writer answers. Where it is not DESK_WROTE, the bag or the requests are as they were before. */
typedef enum {
    DESK_WROTE,
    DESK_WROTE_NO_ROOM, /* the lent bytes, or the most that a bag may have, are used up */
    DESK_WROTE_MANY,    /* the section has as many entries as it may, the list as many strings, or the tally as many requests */
    DESK_WROTE_TWICE,   /* the section has this path already; for a list, has it with no list; the vocabulary has this word already */
    DESK_WROTE_PATH,    /* no root, or no path of a bag: a name that is none, a reserved word, too long; a word or a path of a vocabulary that is empty or too long */
    DESK_WROTE_VALUE    /* a string that is too long, a number that is not finite, or a part of a request that is too long */
} DeskWrote;

/* An empty bag, in at least 3 bytes. */
DeskWrote desk_bag_begin(DeskBagWriter *w, void *bytes, size_t room);

/* An attribute more, in any order. Each is looked up when it is written, so a path that the desk does not know never gets into the bag. Path and string lie outside the lent bytes. */
DeskWrote desk_bag_string(DeskBagWriter *w, uint8_t root, DeskPath path, const void *string, size_t length);
DeskWrote desk_bag_number(DeskBagWriter *w, uint8_t root, DeskPath path, double number);
DeskWrote desk_bag_flag(DeskBagWriter *w, uint8_t root, DeskPath path, bool flag);

/* A list without strings; then a string more at the end of a list that was begun. */
DeskWrote desk_bag_list(DeskBagWriter *w, uint8_t root, DeskPath path);
DeskWrote desk_bag_list_string(DeskBagWriter *w, uint8_t root, DeskPath path, const void *string, size_t length);

/* The bag that was written. */
static inline DeskBag desk_bag_written(const DeskBagWriter *w) { return desk_bag(w->bytes, w->length); }

/* How many strings an attribute's list has; 0 for what is no list, and where the bytes are no bag. */
size_t desk_list_length(DeskBag bag, uint8_t root, DeskPath path);

/* Where a string of an attribute's list lies in the bag, the first at index 0; 0 and 0 where there is none. */
DeskString desk_list_string(DeskBag bag, uint8_t root, DeskPath path, size_t index);

/* ---- desk_tallies.c */

/* Requests that are being written into memory that the caller lends, as a tally takes them. Between two calls, bytes and length are so many requests. */
typedef struct {
    uint8_t *bytes;
    size_t room;
    size_t length;
    size_t many;
} DeskRequestsWriter;

/* No requests yet. DESK_REQUESTS_ROOM is enough for all that a tally takes. */
#define DESK_REQUESTS_ROOM (DESK_MOST_REQUESTS * 3 * (1 + DESK_MOST_REQUEST_PART))
void desk_requests_begin(DeskRequestsWriter *w, void *bytes, size_t room);

/* A request more. That its parts are no longer than they may be is asked here, all else by the tally. */
DeskWrote desk_requests_add(DeskRequestsWriter *w, DeskSubject subject, DeskAction action, DeskResource resource);

/* The requests that were written; beside them the tally is told how many they are. */
static inline DeskRequests desk_requests_written(const DeskRequestsWriter *w) { return desk_requests(w->bytes, w->length); }

/* How many rows have an outcome, and how many a policy decides: of a request, the first at group 0, or of all at group DESK_TALLY_SUMS. 0 where there is no such group, outcome or policy. */
uint32_t desk_tally_outcome(const DeskCounts *counts, size_t group, uint32_t outcome);
uint32_t desk_tally_policy(const DeskCounts *counts, size_t group, size_t policy);

/* ---- desk_locks.c */

/* A vocabulary or an action list that is being written into memory that the caller lends. Between two calls, bytes and length are one, of so many words or actions. */
typedef struct {
    uint8_t *bytes;
    size_t room;
    size_t length;
    size_t many;
} DeskLockWriter;

/* No word and no action yet. So many bytes are enough for every vocabulary, and for every action list. */
#define DESK_VOCABULARY_ROOM (DESK_MOST_LOCK_WORDS * (3 + DESK_MOST_WORD + DESK_MOST_PATH))
#define DESK_ACTIONS_ROOM (DESK_MOST_LITERALS * (1 + DESK_MOST_TEXT_STRING))
void desk_lock_begin(DeskLockWriter *w, void *bytes, size_t room);

/* A word more, with its path and sort; an action more. Lengths, numbers and repeated words are looked at here, all else by desk_lock. */
DeskWrote desk_lock_word(DeskLockWriter *w, const void *word, size_t length, DeskPath path, uint8_t sort);
DeskWrote desk_lock_action(DeskLockWriter *w, const void *action, size_t length);

/* What was written. */
static inline DeskVocabulary desk_vocabulary_written(const DeskLockWriter *w) { return desk_vocabulary(w->bytes, w->length); }
static inline DeskActions desk_actions_written(const DeskLockWriter *w) { return desk_actions(w->bytes, w->length); }

#ifdef __cplusplus
}
#endif
#endif

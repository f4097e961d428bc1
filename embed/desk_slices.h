/* The calls of desk.h with a type for each thing that is lent, so that a compiler refuses swapped arguments: made by embed/header. What is written into is a room.
   For example: desk_decide_of(desk_text(rules, n), desk_table(table, used), desk_bag(bag, m), desk_subject(DESK_WORDS("person:K7")), ..) */
#ifndef DESK_SLICES_H
#define DESK_SLICES_H
#include "desk.h"

/* The bytes of a string literal and their number. */
#define DESK_WORDS(s) (s), sizeof(s) - 1

typedef struct {
    const uint8_t *bytes;
    size_t length;
} DeskText;
static inline DeskText desk_text(const void *bytes, size_t length) {
    DeskText s = {(const uint8_t *)bytes, length};
    return s;
}

typedef struct {
    uint8_t *bytes;
    size_t length;
} DeskTableRoom;
static inline DeskTableRoom desk_table_room(void *bytes, size_t length) {
    DeskTableRoom s = {(uint8_t *)bytes, length};
    return s;
}

typedef struct {
    const uint8_t *bytes;
    size_t length;
} DeskTable;
static inline DeskTable desk_table(const void *bytes, size_t length) {
    DeskTable s = {(const uint8_t *)bytes, length};
    return s;
}

typedef struct {
    const uint8_t *bytes;
    size_t length;
} DeskBag;
static inline DeskBag desk_bag(const void *bytes, size_t length) {
    DeskBag s = {(const uint8_t *)bytes, length};
    return s;
}

typedef struct {
    const uint8_t *bytes;
    size_t length;
} DeskSubject;
static inline DeskSubject desk_subject(const void *bytes, size_t length) {
    DeskSubject s = {(const uint8_t *)bytes, length};
    return s;
}

typedef struct {
    const uint8_t *bytes;
    size_t length;
} DeskAction;
static inline DeskAction desk_action(const void *bytes, size_t length) {
    DeskAction s = {(const uint8_t *)bytes, length};
    return s;
}

typedef struct {
    const uint8_t *bytes;
    size_t length;
} DeskResource;
static inline DeskResource desk_resource(const void *bytes, size_t length) {
    DeskResource s = {(const uint8_t *)bytes, length};
    return s;
}

typedef struct {
    const uint8_t *bytes;
    size_t length;
} DeskPath;
static inline DeskPath desk_path(const void *bytes, size_t length) {
    DeskPath s = {(const uint8_t *)bytes, length};
    return s;
}

typedef struct {
    const uint8_t *bytes;
    size_t length;
} DeskQuestion;
static inline DeskQuestion desk_question(const void *bytes, size_t length) {
    DeskQuestion s = {(const uint8_t *)bytes, length};
    return s;
}

typedef struct {
    uint8_t *bytes;
    size_t length;
} DeskSheetRoom;
static inline DeskSheetRoom desk_sheet_room(void *bytes, size_t length) {
    DeskSheetRoom s = {(uint8_t *)bytes, length};
    return s;
}

typedef struct {
    const uint8_t *bytes;
    size_t length;
} DeskRequests;
static inline DeskRequests desk_requests(const void *bytes, size_t length) {
    DeskRequests s = {(const uint8_t *)bytes, length};
    return s;
}

typedef struct {
    uint32_t at[612];
} DeskCounts;

typedef struct {
    const uint8_t *bytes;
    size_t length;
} DeskVocabulary;
static inline DeskVocabulary desk_vocabulary(const void *bytes, size_t length) {
    DeskVocabulary s = {(const uint8_t *)bytes, length};
    return s;
}

typedef struct {
    const uint8_t *bytes;
    size_t length;
} DeskLockText;
static inline DeskLockText desk_lock_text(const void *bytes, size_t length) {
    DeskLockText s = {(const uint8_t *)bytes, length};
    return s;
}

typedef struct {
    const uint8_t *bytes;
    size_t length;
} DeskActions;
static inline DeskActions desk_actions(const void *bytes, size_t length) {
    DeskActions s = {(const uint8_t *)bytes, length};
    return s;
}

typedef struct {
    uint8_t *bytes;
    size_t length;
} DeskRoom;
static inline DeskRoom desk_room(void *bytes, size_t length) {
    DeskRoom s = {(uint8_t *)bytes, length};
    return s;
}

static inline DeskCompiled desk_compile_of(DeskText text, DeskTableRoom table, uint64_t version) { return desk_compile(text.bytes, text.length, table.bytes, table.length, version); }
static inline bool desk_begins_of(DeskText text, DeskTable table) { return desk_begins(text.bytes, text.length, table.bytes, table.length); }
static inline DeskDecision desk_decide_of(DeskText text, DeskTable table, DeskBag bag, DeskSubject subject, DeskAction action, DeskResource resource) { return desk_decide(text.bytes, text.length, table.bytes, table.length, bag.bytes, bag.length, subject.bytes, subject.length, action.bytes, action.length, resource.bytes, resource.length); }
static inline DeskValue desk_lookup_of(DeskBag bag, uint8_t root, DeskPath path) { return desk_lookup(bag.bytes, bag.length, root, path.bytes, path.length); }
static inline DeskString desk_string_of(DeskBag bag, uint8_t root, DeskPath path) { return desk_string(bag.bytes, bag.length, root, path.bytes, path.length); }
static inline DeskPage desk_sheet_of(DeskText text, DeskTable table, DeskQuestion question, DeskSubject subject, DeskAction action, DeskResource resource, size_t start, DeskSheetRoom sheet, size_t at) { return desk_sheet(text.bytes, text.length, table.bytes, table.length, question.bytes, question.length, subject.bytes, subject.length, action.bytes, action.length, resource.bytes, resource.length, start, sheet.bytes, sheet.length, at); }
static inline size_t desk_rows_of(DeskQuestion question) { return desk_rows(question.bytes, question.length); }
static inline uint32_t desk_tally_of(DeskText text, DeskTable table, DeskQuestion question, size_t many, DeskRequests requests, DeskCounts *counts) { return desk_tally(text.bytes, text.length, table.bytes, table.length, question.bytes, question.length, many, requests.bytes, requests.length, counts->at); }
static inline DeskLock desk_lock_of(DeskVocabulary vocabulary, DeskLockText lock, DeskActions actions, DeskResource resource, DeskRoom room) { return desk_lock(vocabulary.bytes, vocabulary.length, lock.bytes, lock.length, actions.bytes, actions.length, resource.bytes, resource.length, room.bytes, room.length); }
#endif

// A writer of the vocabularies and action lists of locks, beside the desk and optional: desk_more.h says what it does, docs/LOCKS.md what the bytes are.
#include "desk_more.h"
#include <string.h>

void desk_lock_begin(DeskLockWriter *w, void *bytes, size_t room) {
    w->bytes = (uint8_t *)bytes;
    w->room = room;
    w->length = w->many = 0;
}

// Bytes behind their length byte.
static void put_counted(DeskLockWriter *w, const void *bytes, size_t length) {
    w->bytes[w->length++] = (uint8_t)length;
    if (length > 0) memcpy(w->bytes + w->length, bytes, length);
    w->length += length;
}

static bool has_word(const DeskLockWriter *w, const uint8_t *word, size_t length) {
    for (size_t at = 0; at < w->length;) {
        size_t path = at + 1 + w->bytes[at], i = 0;
        while (i < length && w->bytes[at] == length && w->bytes[at + 1 + i] == word[i]) i++;
        if (i == length) return true;
        at = path + 1 + w->bytes[path] + 1;
    }
    return false;
}

DeskWrote desk_lock_word(DeskLockWriter *w, const void *word, size_t length, DeskPath path, uint8_t sort) {
    if (length == 0 || length > DESK_MOST_WORD || path.length == 0 || path.length > DESK_MOST_PATH) return DESK_WROTE_PATH;
    if (has_word(w, (const uint8_t *)word, length)) return DESK_WROTE_TWICE;
    if (w->many == DESK_MOST_LOCK_WORDS) return DESK_WROTE_MANY;
    if (3 + length + path.length > w->room - w->length) return DESK_WROTE_NO_ROOM;
    put_counted(w, word, length);
    put_counted(w, path.bytes, path.length);
    w->bytes[w->length++] = sort;
    w->many++;
    return DESK_WROTE;
}

DeskWrote desk_lock_action(DeskLockWriter *w, const void *action, size_t length) {
    if (length > DESK_MOST_TEXT_STRING) return DESK_WROTE_VALUE;
    if (w->many == DESK_MOST_LITERALS) return DESK_WROTE_MANY;
    if (1 + length > w->room - w->length) return DESK_WROTE_NO_ROOM;
    put_counted(w, action, length);
    w->many++;
    return DESK_WROTE;
}

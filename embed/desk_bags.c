// A writer of bags and a reader of their lists, beside the desk and optional: desk_more.h says what they do, docs/BAGS.md what the bytes are.
#include "desk_more.h"
#include <string.h>

// ---- where things lie in a bag that was written here

// The end of the value after the kind byte at `kind`.
static size_t value_end(const uint8_t *bytes, size_t kind) {
    size_t at = kind + 1;
    switch (bytes[kind]) {
    case DESK_KIND_STRING: return at + 1 + bytes[at];
    case DESK_KIND_NUMBER: return at + 8;
    case DESK_KIND_FLAG: return at + 1;
    }
    size_t strings = bytes[at++];
    for (; strings > 0; strings--) at += 1 + bytes[at];
    return at;
}

static size_t entry_end(const uint8_t *bytes, size_t entry) { return value_end(bytes, entry + 1 + bytes[entry]); }

// The count byte of a root's section.
static size_t section_of(const uint8_t *bytes, uint8_t root) {
    size_t at = 0;
    for (uint8_t r = DESK_ROOT_PRINCIPAL; r < root; r++) {
        size_t entries = bytes[at++];
        for (; entries > 0; entries--) at = entry_end(bytes, at);
    }
    return at;
}

// Below, at or above 0 as the first path stands before, is or stands behind the second: by their bytes, a shorter one before one that it begins.
static int order(const uint8_t *a, size_t a_length, const uint8_t *b, size_t b_length) {
    for (size_t i = 0; i < a_length && i < b_length; i++)
        if (a[i] != b[i]) return a[i] < b[i] ? -1 : 1;
    return a_length < b_length ? -1 : a_length > b_length;
}

// ---- changing it

// Room for so many bytes at a place; what stands there goes further on.
static bool widen(DeskBagWriter *w, size_t at, size_t bytes) {
    size_t most = w->room < DESK_MOST_BAG ? w->room : DESK_MOST_BAG;
    if (bytes > most - w->length) return false;
    for (size_t i = w->length; i > at; i--) w->bytes[i - 1 + bytes] = w->bytes[i - 1];
    w->length += bytes;
    return true;
}

static void put(DeskBagWriter *w, size_t at, const void *bytes, size_t length) {
    if (length > 0) memcpy(w->bytes + at, bytes, length);
}

// An entry whose value is these bytes, the first of them its kind.
static DeskWrote enter(DeskBagWriter *w, uint8_t root, DeskPath path, const uint8_t *value, size_t length) {
    if (root < DESK_ROOT_PRINCIPAL || root > DESK_ROOT_ENV || path.length == 0 || path.length > DESK_MOST_PATH) return DESK_WROTE_PATH;
    size_t count = section_of(w->bytes, root), at = count + 1, bytes = 1 + path.length + length;
    for (size_t left = w->bytes[count]; left > 0; left--, at = entry_end(w->bytes, at)) {
        int o = order(path.bytes, path.length, w->bytes + at + 1, w->bytes[at]);
        if (o == 0) return DESK_WROTE_TWICE;
        if (o < 0) break;
    }
    if (w->bytes[count] == DESK_MOST_ENTRIES) return DESK_WROTE_MANY;
    if (!widen(w, at, bytes)) return DESK_WROTE_NO_ROOM;
    w->bytes[at] = (uint8_t)path.length;
    put(w, at + 1, path.bytes, path.length);
    put(w, at + 1 + path.length, value, length);
    w->bytes[count]++;
    if (desk_lookup(w->bytes, w->length, root, path.bytes, path.length).kind == value[0]) return DESK_WROTE;
    w->bytes[count]--;
    for (size_t i = at; i + bytes < w->length; i++) w->bytes[i] = w->bytes[i + bytes];
    w->length -= bytes;
    return DESK_WROTE_PATH;
}

DeskWrote desk_bag_begin(DeskBagWriter *w, void *bytes, size_t room) {
    w->bytes = (uint8_t *)bytes;
    w->room = room;
    w->length = 0;
    if (room < 3) return DESK_WROTE_NO_ROOM;
    for (; w->length < 3; w->length++) w->bytes[w->length] = 0;
    return DESK_WROTE;
}

DeskWrote desk_bag_string(DeskBagWriter *w, uint8_t root, DeskPath path, const void *string, size_t length) {
    uint8_t value[2 + DESK_MOST_STRING] = {DESK_KIND_STRING, (uint8_t)length};
    if (length > DESK_MOST_STRING) return DESK_WROTE_VALUE;
    if (length > 0) memcpy(value + 2, string, length);
    return enter(w, root, path, value, 2 + length);
}

DeskWrote desk_bag_number(DeskBagWriter *w, uint8_t root, DeskPath path, double number) {
    uint8_t value[9] = {DESK_KIND_NUMBER};
    uint64_t bits;
    memcpy(&bits, &number, sizeof bits);
    if ((bits >> 52 & 0x7FF) == 0x7FF) return DESK_WROTE_VALUE;
    for (int i = 0; i < 8; i++) value[1 + i] = (uint8_t)(bits >> 8 * i);
    return enter(w, root, path, value, sizeof value);
}

DeskWrote desk_bag_flag(DeskBagWriter *w, uint8_t root, DeskPath path, bool flag) {
    uint8_t value[2] = {DESK_KIND_FLAG, flag};
    return enter(w, root, path, value, sizeof value);
}

DeskWrote desk_bag_list(DeskBagWriter *w, uint8_t root, DeskPath path) {
    uint8_t value[2] = {DESK_KIND_LIST, 0};
    return enter(w, root, path, value, sizeof value);
}

DeskWrote desk_bag_list_string(DeskBagWriter *w, uint8_t root, DeskPath path, const void *string, size_t length) {
    if (length > DESK_MOST_STRING) return DESK_WROTE_VALUE;
    DeskValue v = desk_lookup(w->bytes, w->length, root, path.bytes, path.length);
    if (v.kind == DESK_KIND_ABSENT) return DESK_WROTE_PATH;
    if (v.kind != DESK_KIND_LIST) return DESK_WROTE_TWICE;
    if (w->bytes[v.place] == DESK_MOST_STRINGS) return DESK_WROTE_MANY;
    size_t end = value_end(w->bytes, v.place - 1);
    if (!widen(w, end, 1 + length)) return DESK_WROTE_NO_ROOM;
    w->bytes[end] = (uint8_t)length;
    put(w, end + 1, string, length);
    w->bytes[v.place]++;
    return DESK_WROTE;
}

// ---- reading lists

size_t desk_list_length(DeskBag bag, uint8_t root, DeskPath path) {
    DeskValue v = desk_lookup_of(bag, root, path);
    return v.kind == DESK_KIND_LIST ? bag.bytes[v.place] : 0;
}

DeskString desk_list_string(DeskBag bag, uint8_t root, DeskPath path, size_t index) {
    DeskString s = {0, 0};
    DeskValue v = desk_lookup_of(bag, root, path);
    if (v.kind != DESK_KIND_LIST || index >= bag.bytes[v.place]) return s;
    size_t at = v.place + 1;
    for (; index > 0; index--) at += 1 + (size_t)bag.bytes[at];
    s.start = at + 1;
    s.length = bag.bytes[at];
    return s;
}

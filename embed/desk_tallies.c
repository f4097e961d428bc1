// A writer of the requests of a tally and readers of its counts, beside the desk and optional: desk_more.h says what they do.
#include "desk_more.h"
#include <string.h>

void desk_requests_begin(DeskRequestsWriter *w, void *bytes, size_t room) {
    w->bytes = (uint8_t *)bytes;
    w->room = room;
    w->length = 0;
    w->many = 0;
}

// A part behind its length byte; there is room for it.
static void put(DeskRequestsWriter *w, const uint8_t *bytes, size_t length) {
    w->bytes[w->length++] = (uint8_t)length;
    if (length > 0) memcpy(w->bytes + w->length, bytes, length);
    w->length += length;
}

DeskWrote desk_requests_add(DeskRequestsWriter *w, DeskSubject subject, DeskAction action, DeskResource resource) {
    if (w->many == DESK_MOST_REQUESTS) return DESK_WROTE_MANY;
    if (subject.length > DESK_MOST_REQUEST_PART || action.length > DESK_MOST_REQUEST_PART || resource.length > DESK_MOST_REQUEST_PART) return DESK_WROTE_VALUE;
    if (w->room - w->length < 3 + subject.length + action.length + resource.length) return DESK_WROTE_NO_ROOM;
    put(w, subject.bytes, subject.length);
    put(w, action.bytes, action.length);
    put(w, resource.bytes, resource.length);
    w->many++;
    return DESK_WROTE;
}

uint32_t desk_tally_outcome(const DeskCounts *counts, size_t group, uint32_t outcome) {
    if (group > DESK_TALLY_SUMS || outcome < 1 || outcome > DESK_TALLY_OUTCOMES) return 0;
    return counts->at[DESK_TALLY_GROUP * group + outcome - 1];
}

uint32_t desk_tally_policy(const DeskCounts *counts, size_t group, size_t policy) {
    if (group > DESK_TALLY_SUMS || policy < 1 || policy > DESK_MOST_POLICIES) return 0;
    return counts->at[DESK_TALLY_GROUP * group + DESK_TALLY_OUTCOMES + policy - 1];
}

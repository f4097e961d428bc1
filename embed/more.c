// What stands beside the archive, tried: the readers of marks and rows, the writer of bags, the reader of lists, the writer of requests and the readers of counts, the writer of vocabularies and action lists, the sentences. Prints how many checks were made; a check that fails is printed and ends it with
// status 1. embed/run builds it also with the compiler's checks for memory and arithmetic.
#include "desk_more.h"
#include <stdio.h>
#include <string.h>

static int made, failed;
static uint8_t room[5000];
static DeskBagWriter w;

static void check(int holds, const char *what) {
    made++;
    if (holds) return;
    printf("FAILED: %s\n", what);
    failed++;
}
#define CHECK(holds) check(holds, #holds)
#define PATH(s) desk_path(DESK_WORDS(s))
#define IS(literal) (w.length == sizeof(literal) - 1 && memcmp(w.bytes, literal, w.length) == 0)

// A mark policy by policy, and a listed row byte by byte.
static void marks(void) {
    const uint64_t mark = (uint64_t)1 << 63 | 1;
    for (size_t n = 0; n <= DESK_MOST_POLICIES + 1; n++) CHECK(desk_marked(mark, n) == (n == 1 || n == DESK_MOST_POLICIES));
    CHECK(!desk_marked(UINT64_MAX, 0) && !desk_marked(UINT64_MAX, 65) && !desk_marked(UINT64_MAX, SIZE_MAX) && desk_marked(UINT64_MAX, 33));
    DeskRow row = desk_row((const uint8_t *)"\xFF\xFF\3\0\1\100\1\2\3\4\5\6\7\x88");
    CHECK(row.number == 262143 && row.outcome == DESK_ALLOWED && row.policy == 64 && row.mark == 0x8807060504030201);
}

// Nothing lent changes where a sheet is refused: neither the 13 bytes that are no room for a row, nor those round them. With one byte more the row is there, and those round it stay.
static void rows(void) {
    static const char rule[] = "permit(principal,action,resource);";
    static uint8_t table[DESK_TABLE_FOR_A_BYTE * sizeof rule], lent[DESK_ROW_BYTES + 6], before[DESK_ROW_BYTES + 6];
    DeskText text = desk_text(DESK_WORDS(rule));
    DeskTable compiled = desk_table(table, desk_compile_of(text, desk_table_room(table, sizeof table), DESK_RULES_VERSION_1).bytes);
    DeskQuestion question = desk_question(DESK_WORDS("\0\0\0\0"));
    DeskSubject tool = desk_subject(DESK_WORDS("tool:T1"));
    DeskAction teach = desk_action(DESK_WORDS("teach"));
    DeskResource shaft = desk_resource(DESK_WORDS("shaft:A"));
    memset(lent, 0xAA, sizeof lent);
    memcpy(before, lent, sizeof lent);
    CHECK(desk_sheet_of(text, compiled, question, tool, teach, shaft, 0, desk_sheet_room(lent, DESK_ROW_BYTES + 2), 3).refusal == DESK_REFUSED_SHEET_ROOM);
    CHECK(desk_sheet_of(text, compiled, question, tool, teach, shaft, 2, desk_sheet_room(lent, sizeof lent), 3).refusal == DESK_REFUSED_START);
    CHECK(desk_sheet_of(text, desk_table(table, 0), question, tool, teach, shaft, 0, desk_sheet_room(lent, sizeof lent), 3).refusal == DESK_REFUSED_OTHER_TABLE);
    CHECK(memcmp(lent, before, sizeof lent) == 0);
    DeskPage p = desk_sheet_of(text, compiled, question, tool, teach, shaft, 0, desk_sheet_room(lent, DESK_ROW_BYTES + 3), 3);
    CHECK(p.refusal == 0 && p.written == 1 && p.next == 1);
    DeskRow row = desk_row(lent + 3);
    CHECK(row.number == 0 && row.outcome == DESK_ALLOWED && row.policy == 1 && row.mark == 1);
    CHECK(memcmp(lent, before, 3) == 0 && memcmp(lent + 3 + DESK_ROW_BYTES, before, 3) == 0);
}

// Written in another order than they stand in the bag; docs/BAGS.md has these bytes.
static void in_any_order(void) {
    CHECK(desk_bag_begin(&w, room, sizeof room) == DESK_WROTE);
    CHECK(IS("\0\0\0"));
    CHECK(desk_bag_number(&w, DESK_ROOT_ENV, PATH("hour"), 7.5) == DESK_WROTE);
    CHECK(desk_bag_list(&w, DESK_ROOT_PRINCIPAL, PATH("trained")) == DESK_WROTE);
    CHECK(desk_bag_flag(&w, DESK_ROOT_PRINCIPAL, PATH("lead"), true) == DESK_WROTE);
    CHECK(desk_bag_list_string(&w, DESK_ROOT_PRINCIPAL, PATH("trained"), DESK_WORDS("car")) == DESK_WROTE);
    CHECK(desk_bag_string(&w, DESK_ROOT_PRINCIPAL, PATH("hired"), DESK_WORDS("own")) == DESK_WROTE);
    CHECK(desk_bag_list_string(&w, DESK_ROOT_PRINCIPAL, PATH("trained"), DESK_WORDS("door")) == DESK_WROTE);
    CHECK(desk_bag_number(&w, DESK_ROOT_PRINCIPAL, PATH("grade"), 3) == DESK_WROTE);
    CHECK(IS("\4\5grade\2\0\0\0\0\0\0\x08\x40\5hired\1\3own\4lead\3\1\7trained\4\2\3car\4door\0\1\4hour\2\0\0\0\0\0\0\x1E\x40"));
}

static void lists(void) {
    DeskBag bag = desk_bag_written(&w);
    CHECK(desk_list_length(bag, DESK_ROOT_PRINCIPAL, PATH("trained")) == 2);
    DeskString s = desk_list_string(bag, DESK_ROOT_PRINCIPAL, PATH("trained"), 1);
    CHECK(s.length == 4 && memcmp(bag.bytes + s.start, "door", 4) == 0);
    s = desk_list_string(bag, DESK_ROOT_PRINCIPAL, PATH("trained"), 0);
    CHECK(s.length == 3 && memcmp(bag.bytes + s.start, "car", 3) == 0);
    s = desk_list_string(bag, DESK_ROOT_PRINCIPAL, PATH("trained"), 2);
    CHECK(s.start == 0 && s.length == 0);
    CHECK(desk_list_length(bag, DESK_ROOT_PRINCIPAL, PATH("hired")) == 0);
    CHECK(desk_list_length(bag, DESK_ROOT_PRINCIPAL, PATH("none")) == 0);
    CHECK(desk_list_length(desk_bag(DESK_WORDS("\1")), DESK_ROOT_PRINCIPAL, PATH("trained")) == 0);
    CHECK(desk_list_string(bag, DESK_ROOT_PRINCIPAL, PATH("hired"), 0).start == 0);
}

// What the writer refuses, and that the bag stays as it was.
static void refused(void) {
    static uint8_t before[sizeof room];
    static const char long_string[DESK_MOST_STRING + 1];
    size_t length = w.length;
    memcpy(before, w.bytes, sizeof before);
    double infinite = 1e308;
    infinite *= 10;
    CHECK(desk_bag_flag(&w, DESK_ROOT_PRINCIPAL, PATH("lead"), false) == DESK_WROTE_TWICE);
    CHECK(desk_bag_list_string(&w, DESK_ROOT_PRINCIPAL, PATH("lead"), DESK_WORDS("x")) == DESK_WROTE_TWICE);
    CHECK(desk_bag_list_string(&w, DESK_ROOT_PRINCIPAL, PATH("none"), DESK_WORDS("x")) == DESK_WROTE_PATH);
    CHECK(desk_bag_flag(&w, 0, PATH("a"), false) == DESK_WROTE_PATH);
    CHECK(desk_bag_flag(&w, 4, PATH("a"), false) == DESK_WROTE_PATH);
    CHECK(desk_bag_flag(&w, DESK_ROOT_ENV, PATH(""), false) == DESK_WROTE_PATH);
    CHECK(desk_bag_flag(&w, DESK_ROOT_RESOURCE, PATH("if"), false) == DESK_WROTE_PATH);
    CHECK(desk_bag_flag(&w, DESK_ROOT_PRINCIPAL, PATH("a..b"), false) == DESK_WROTE_PATH);
    CHECK(desk_bag_string(&w, DESK_ROOT_PRINCIPAL, PATH("z b"), DESK_WORDS("x")) == DESK_WROTE_PATH);
    CHECK(desk_bag_flag(&w, DESK_ROOT_ENV, PATH("aword-that-goes-on-for-more-bytes-than-a-path-may-have-0123456789"), true) == DESK_WROTE_PATH);
    CHECK(desk_bag_string(&w, DESK_ROOT_ENV, PATH("a"), long_string, sizeof long_string) == DESK_WROTE_VALUE);
    CHECK(desk_bag_list_string(&w, DESK_ROOT_PRINCIPAL, PATH("trained"), long_string, sizeof long_string) == DESK_WROTE_VALUE);
    CHECK(desk_bag_number(&w, DESK_ROOT_ENV, PATH("a"), infinite) == DESK_WROTE_VALUE);
    CHECK(desk_bag_number(&w, DESK_ROOT_ENV, PATH("a"), infinite - infinite) == DESK_WROTE_VALUE);
    w.room = w.length + 3;
    CHECK(desk_bag_flag(&w, DESK_ROOT_ENV, PATH("a"), true) == DESK_WROTE_NO_ROOM);
    CHECK(desk_bag_list_string(&w, DESK_ROOT_PRINCIPAL, PATH("trained"), DESK_WORDS("abc")) == DESK_WROTE_NO_ROOM);
    w.room = sizeof room;
    CHECK(w.length == length && memcmp(w.bytes, before, length) == 0);
    CHECK(desk_bag_begin(&w, room, 2) == DESK_WROTE_NO_ROOM);
}

// Up to the sizes of a bag, in memory of just so many bytes: the last attribute that does not fit is refused.
static void filled(void) {
    static uint8_t most[DESK_MOST_BAG + 100];
    char path[3] = "aa";
    CHECK(desk_bag_begin(&w, most, sizeof most) == DESK_WROTE);
    for (int i = 0; i < (int)DESK_MOST_ENTRIES; i++, path[1]++) {
        if (path[1] > 'z') path[0]++, path[1] = 'a';
        CHECK(desk_bag_string(&w, DESK_ROOT_RESOURCE, desk_path(path, 2), most, 115) == DESK_WROTE);
    }
    CHECK(desk_bag_flag(&w, DESK_ROOT_RESOURCE, PATH("b"), true) == DESK_WROTE_MANY);
    CHECK(w.length == 3 + 32 * 120);
    CHECK(desk_bag_list(&w, DESK_ROOT_ENV, PATH("l")) == DESK_WROTE);
    for (int i = 0; i < (int)DESK_MOST_STRINGS; i++) CHECK(desk_bag_list_string(&w, DESK_ROOT_ENV, PATH("l"), most, 8) == DESK_WROTE);
    CHECK(desk_bag_list_string(&w, DESK_ROOT_ENV, PATH("l"), most, 0) == DESK_WROTE_MANY);
    CHECK(w.length == 3 + 32 * 120 + 5 - 1 + 16 * 9);
    CHECK(desk_bag_string(&w, DESK_ROOT_PRINCIPAL, PATH("s"), most, DESK_MOST_BAG - w.length - 3) == DESK_WROTE_NO_ROOM);
    CHECK(desk_bag_string(&w, DESK_ROOT_PRINCIPAL, PATH("s"), most, DESK_MOST_BAG - w.length - 4) == DESK_WROTE);
    CHECK(w.length == DESK_MOST_BAG && desk_lookup_of(desk_bag_written(&w), DESK_ROOT_RESOURCE, PATH("aa")).kind == DESK_KIND_STRING);
}

// Requests up to the eighth, what the writer refuses, and that they stay as they were then; the tally of them, read count by count.
static void tallies(void) {
    static uint8_t bytes[DESK_REQUESTS_ROOM];
    static const char long_part[DESK_MOST_REQUEST_PART + 1], most[DESK_MOST_REQUEST_PART];
    static DeskCounts counts;
    DeskRequestsWriter r;
    DeskSubject system = desk_subject(DESK_WORDS("system")), tool = desk_subject(DESK_WORDS("tool:T1"));
    DeskAction teach = desk_action(DESK_WORDS("teach")), none = desk_action(NULL, 0);
    DeskResource shaft = desk_resource(DESK_WORDS("shaft:A"));
    desk_requests_begin(&r, bytes, 31);
    CHECK(desk_requests_add(&r, desk_subject(long_part, sizeof long_part), teach, shaft) == DESK_WROTE_VALUE);
    CHECK(desk_requests_add(&r, tool, desk_action(long_part, sizeof long_part), shaft) == DESK_WROTE_VALUE);
    CHECK(desk_requests_add(&r, tool, teach, desk_resource(long_part, sizeof long_part)) == DESK_WROTE_VALUE);
    CHECK(desk_requests_add(&r, tool, teach, shaft) == DESK_WROTE);
    CHECK(desk_requests_add(&r, desk_subject(DESK_WORDS("system:")), none, desk_resource(NULL, 0)) == DESK_WROTE_NO_ROOM);
    CHECK(r.many == 1 && r.length == 22);
    CHECK(desk_requests_add(&r, system, none, desk_resource(NULL, 0)) == DESK_WROTE);
    CHECK(r.many == 2 && r.length == 31 && memcmp(bytes, "\7tool:T1\5teach\7shaft:A\6system\0\0", 31) == 0);
    desk_requests_begin(&r, bytes, sizeof bytes);
    for (size_t i = 0; i < DESK_MOST_REQUESTS; i++) CHECK(desk_requests_add(&r, desk_subject(most, sizeof most), desk_action(most, sizeof most), desk_resource(most, sizeof most)) == DESK_WROTE);
    CHECK(r.length == sizeof bytes && desk_requests_add(&r, system, none, shaft) == DESK_WROTE_MANY);
    // A question with the column env.a (absent, true): policy 2 permits where it is true.
    static const char rules[] = "forbid(principal is person,action,resource);permit(principal,action,resource)when{env.a==true};";
    static uint8_t table[DESK_TABLE_FOR_A_BYTE * sizeof rules];
    DeskText text = desk_text(DESK_WORDS(rules));
    DeskTable compiled = desk_table(table, desk_compile_of(text, desk_table_room(table, sizeof table), DESK_RULES_VERSION_1).bytes);
    desk_requests_begin(&r, bytes, sizeof bytes);
    desk_requests_add(&r, tool, teach, shaft), desk_requests_add(&r, system, none, shaft), desk_requests_add(&r, desk_subject(DESK_WORDS("person:K7")), teach, shaft);
    CHECK(desk_tally_of(text, compiled, desk_question(DESK_WORDS("\0\0\0\1\3\1" "a" "\2\0\3\1")), r.many, desk_requests_written(&r), &counts) == 0);
    static const uint32_t outcomes[4][4] = {{1, 0, 1, 0}, {0, 0, 0, 2}, {0, 2, 0, 0}, {1, 2, 1, 2}}, policies[4][3] = {{0, 1, 0}, {0, 0, 0}, {2, 0, 0}, {2, 1, 0}};
    for (size_t i = 0; i < 4; i++) {
        size_t group = i < 3 ? i : DESK_TALLY_SUMS;
        for (uint32_t o = 1; o <= 4; o++) CHECK(desk_tally_outcome(&counts, group, o) == outcomes[i][o - 1]);
        for (size_t n = 1; n <= 3; n++) CHECK(desk_tally_policy(&counts, group, n) == policies[i][n - 1]);
    }
    CHECK(desk_tally_outcome(&counts, 3, DESK_SYSTEM) == 0);
    CHECK(desk_tally_outcome(&counts, DESK_TALLY_SUMS + 1, DESK_SYSTEM) == 0 && desk_tally_policy(&counts, SIZE_MAX, 1) == 0);
    CHECK(desk_tally_outcome(&counts, 1, 0) == 0 && desk_tally_outcome(&counts, 1, 5) == 0 && desk_tally_policy(&counts, 1, 0) == 0 && desk_tally_policy(&counts, DESK_TALLY_SUMS, 65) == 0);
}

// The writer of vocabularies and action lists: docs/LOCKS.md has these bytes.
static void locks(void) {
    static uint8_t bytes[DESK_VOCABULARY_ROOM + 1];
    static const char most[DESK_MOST_TEXT_STRING + 1] = "wwwwwwwwwwwwwwwwwwwwwwwwwwwwwwwwwwwwwwwwwwwwwwwwwwwwwwwwwwwwwwww";
    static const char vocabulary[] = "\4firm\4firm\1\4flag\5flags\2\5grade\5grade\3";
    static const char list[] = "\5teach\4read";
    DeskLockWriter v;
    desk_lock_begin(&v, bytes, sizeof vocabulary - 1);
    CHECK(desk_lock_word(&v, DESK_WORDS("firm"), PATH("firm"), DESK_SORT_EQUALITY) == DESK_WROTE);
    CHECK(desk_lock_word(&v, DESK_WORDS("flag"), PATH("flags"), DESK_SORT_MEMBERSHIP) == DESK_WROTE);
    CHECK(desk_lock_word(&v, DESK_WORDS("grade"), PATH("grade"), DESK_SORT_NUMBER) == DESK_WROTE);
    CHECK(desk_lock_word(&v, DESK_WORDS("g"), PATH("g"), DESK_SORT_NUMBER) == DESK_WROTE_NO_ROOM);
    CHECK(desk_lock_word(&v, DESK_WORDS("flag"), PATH("g"), DESK_SORT_NUMBER) == DESK_WROTE_TWICE);
    CHECK(desk_lock_word(&v, DESK_WORDS(""), PATH("g"), DESK_SORT_NUMBER) == DESK_WROTE_PATH);
    CHECK(desk_lock_word(&v, most, DESK_MOST_WORD + 1, PATH("g"), DESK_SORT_NUMBER) == DESK_WROTE_PATH);
    CHECK(desk_lock_word(&v, most, 1, desk_path(most, DESK_MOST_PATH + 1), DESK_SORT_NUMBER) == DESK_WROTE_PATH);
    CHECK(v.many == 3 && v.length == sizeof vocabulary - 1 && memcmp(bytes, vocabulary, v.length) == 0);
    desk_lock_begin(&v, bytes, sizeof list - 1);
    CHECK(desk_lock_action(&v, DESK_WORDS("teach")) == DESK_WROTE && desk_lock_action(&v, DESK_WORDS("read")) == DESK_WROTE);
    CHECK(desk_lock_action(&v, DESK_WORDS("")) == DESK_WROTE_NO_ROOM);
    CHECK(desk_lock_action(&v, most, DESK_MOST_TEXT_STRING + 1) == DESK_WROTE_VALUE);
    CHECK(v.many == 2 && v.length == sizeof list - 1 && memcmp(bytes, list, v.length) == 0);
    // as many as there may be, each as long as it may be
    char word[DESK_MOST_WORD];
    memcpy(word, most, sizeof word);
    desk_lock_begin(&v, bytes, DESK_VOCABULARY_ROOM);
    for (int i = 0; i < (int)DESK_MOST_LOCK_WORDS; i++) {
        word[sizeof word - 1] = (char)('a' + i);
        CHECK(desk_lock_word(&v, word, sizeof word, desk_path(most, DESK_MOST_PATH), DESK_SORT_EQUALITY) == DESK_WROTE);
    }
    CHECK(v.length == DESK_VOCABULARY_ROOM && desk_lock_word(&v, DESK_WORDS("w"), PATH("p"), DESK_SORT_EQUALITY) == DESK_WROTE_MANY);
    static uint8_t actions[DESK_ACTIONS_ROOM], permit[DESK_MOST_PERMIT];
    DeskLockWriter a;
    desk_lock_begin(&a, actions, sizeof actions);
    for (int i = 0; i < (int)DESK_MOST_LITERALS; i++) CHECK(desk_lock_action(&a, "x", i > 0) == DESK_WROTE);
    CHECK(desk_lock_action(&a, DESK_WORDS("x")) == DESK_WROTE_MANY);
    char lock[DESK_MOST_WORD + 2];
    memcpy(lock, word, sizeof word);
    memcpy(lock + sizeof word, ":v", 2);
    CHECK(desk_lock_of(desk_vocabulary_written(&v), desk_lock_text(lock, sizeof lock), desk_actions_written(&a), desk_resource(DESK_WORDS("shaft:A")), desk_room(permit, sizeof permit)).refusal == 0);
}

// A sentence for each refusal, no two alike.
static void sentences(void) {
    int different = 0, there = 0;
    for (unsigned r = DESK_REFUSED_LONG_TEXT; r <= DESK_REFUSED_VERSION; r++) {
        bool is = r <= DESK_REFUSED_NOT_UTF8 || r >= DESK_REFUSED_OTHER_TABLE;
        there += is == (strcmp(desk_message(r), desk_message(99)) != 0);
        for (unsigned s = DESK_REFUSED_LONG_TEXT; s < r; s++) different += strcmp(desk_message(r), desk_message(s)) != 0;
    }
    CHECK(there == 30);
    CHECK(different == 30 * 29 / 2 - 1); // 18 and 19 are no refusals
    CHECK(strcmp(desk_message(DESK_REFUSED_COLON), "A colon stands outside a string.") == 0);
}

int main(void) {
    marks();
    rows();
    in_any_order();
    lists();
    refused();
    filled();
    tallies();
    locks();
    sentences();
    printf("%d checks, %d failed\n", made, failed);
    return failed != 0;
}

// Each call refused, and that a refusal gives its number, zeros elsewhere and changes nothing lent: the table, the sheet, the counts and the room of a permit are compared with
// copies, what is before and behind them too. Then tables of both versions and of neither, and slices of no bytes, as NULL. Prints how many checks were made; a check that fails is printed and ends it with status 1.
#include "desk.h"
#include <stdio.h>
#include <string.h>

#define LENT(s) (const uint8_t *)(s), sizeof(s) - 1
#define TEXT LENT("permit(principal,action,resource);")
#define BAG LENT("\0\0\0")
#define QUESTION LENT("\0\0\0\0")
#define REQUEST LENT("person:K7"), LENT("teach"), LENT("shaft:A")
#define NONE NULL, 0
#define FIRST DESK_RULES_VERSION_1
#define SECOND DESK_RULES_VERSION_2

static int made, failed;
static uint8_t lent[1000], copy[1000];
static uint32_t numbers[DESK_TALLY_COUNTS + 20], same[DESK_TALLY_COUNTS + 20]; // the counts from number 10 on

static void check(int holds, const char *what) {
    made++;
    if (!holds || memcmp(lent, copy, sizeof lent) != 0 || memcmp(numbers, same, sizeof numbers) != 0) {
        printf("FAILED: %s\n", what);
        failed++;
    }
}
#define CHECK(holds) check(holds, #holds)

static int compiled(DeskCompiled c, unsigned refusal, size_t line, size_t column, size_t length) {
    return c.refusal == refusal && c.line == line && c.column == column && c.length == length && c.policies == 0 && c.bytes == 0;
}
static int decided(DeskDecision d, unsigned refusal, unsigned outcome) { return d.refusal == refusal && d.outcome == outcome && d.policy == 0 && d.mark == 0; }
static int found(DeskValue v, unsigned refusal) { return v.refusal == refusal && v.kind == 0 && v.number == 0 && v.place == 0; }
static int listed(DeskPage p, unsigned refusal, size_t next) { return p.refusal == refusal && p.written == 0 && p.next == next; }
static int at_none(DeskString s) { return s.start == 0 && s.length == 0; }

static const uint8_t long_text[DESK_MOST_TEXT + 1];

// compile under a version: 1, 2, and some that have a place
static void texts(uint64_t version) {
    uint8_t *table = lent + 100;
    CHECK(compiled(desk_compile(long_text, sizeof long_text, table, 400, version), DESK_REFUSED_LONG_TEXT, 0, 0, 0));
    CHECK(compiled(desk_compile(TEXT, table, 271, version), DESK_REFUSED_SMALL_TABLE, 0, 0, 0));
    CHECK(compiled(desk_compile(LENT("permit(principal,action,resource)"), table, 400, version), DESK_REFUSED_NOT_ADMITTED, 1, 34, 0));
    CHECK(compiled(desk_compile(LENT("\n permit(principal is lift"), table, 400, version), DESK_REFUSED_TYPE, 2, 22, 4));
    CHECK(compiled(desk_compile(LENT("permit \"teach "), table, 400, version), DESK_REFUSED_UNENDED_STRING, 1, 8, 7));
    // columns are characters, and in a string that is not UTF-8 bytes; lengths are bytes
    CHECK(compiled(desk_compile(LENT("permit(principal,action in[\"\xC3\xBC\",\"\xFC\"],resource);"), table, 400, version), DESK_REFUSED_NOT_UTF8, 1, 32, 3));
    CHECK(compiled(desk_compile(LENT("permit(principal,action in[\"\xC3\xBC\1\"],resource);"), table, 400, version), DESK_REFUSED_BYTE, 1, 30, 1));
    CHECK(compiled(desk_compile(LENT("permit(principal,action in[\"\xC3\xBC\1\xFF\"],resource);"), table, 400, version), DESK_REFUSED_BYTE, 1, 31, 1));
}

// compile under a number that names no version: 30 before 1, 2 and all others, of a text without policies too
static void no_version(uint64_t version) {
    uint8_t *table = lent + 100;
    CHECK(compiled(desk_compile(TEXT, table, 400, version), DESK_REFUSED_VERSION, 0, 0, 0));
    CHECK(compiled(desk_compile(long_text, sizeof long_text, table, 400, version), DESK_REFUSED_VERSION, 0, 0, 0));
    CHECK(compiled(desk_compile(TEXT, table, 271, version), DESK_REFUSED_VERSION, 0, 0, 0));
    CHECK(compiled(desk_compile(TEXT, NONE, version), DESK_REFUSED_VERSION, 0, 0, 0));
    CHECK(compiled(desk_compile(LENT("\n permit(principal is lift"), table, 400, version), DESK_REFUSED_VERSION, 0, 0, 0));
    CHECK(compiled(desk_compile(LENT(" \n"), table, 400, version), DESK_REFUSED_VERSION, 0, 0, 0));
    CHECK(compiled(desk_compile(NONE, NONE, version), DESK_REFUSED_VERSION, 0, 0, 0));
}

static void refusals(void) {
    uint8_t *table = lent + 100, *sheet = lent + 500;
    // a table that is not the text's
    CHECK(!desk_begins(TEXT, table, 400));
    // decide: 21, 22, 23, 24, 20, in this order
    CHECK(decided(desk_decide(NONE, NONE, NONE, LENT("lift:A"), NONE, NONE), DESK_REFUSED_SUBJECT, 0));
    CHECK(decided(desk_decide(NONE, NONE, NONE, LENT("tool:A"), NONE, NONE), DESK_REFUSED_ACTION, 0));
    CHECK(decided(desk_decide(NONE, NONE, NONE, LENT("tool:A"), LENT("teach"), NONE), DESK_REFUSED_RESOURCE, 0));
    CHECK(decided(desk_decide(TEXT, table, 400, LENT("\0\0\0\0"), REQUEST), DESK_REFUSED_BAG, 0));
    CHECK(decided(desk_decide(TEXT, table, 400, BAG, REQUEST), DESK_REFUSED_OTHER_TABLE, 0));
    // lookup and string: 24
    CHECK(found(desk_lookup(LENT("\0\0"), 1, LENT("grade")), DESK_REFUSED_BAG));
    CHECK(at_none(desk_string(LENT("\0\0"), 1, LENT("grade"))));
    // an absent attribute, an impossible path and a root byte of 4 are no refusals
    CHECK(found(desk_lookup(BAG, 1, LENT("grade")), 0));
    CHECK(found(desk_lookup(BAG, 4, LENT("grade")), 0));
    CHECK(found(desk_lookup(BAG, 1, LENT("..")), 0));
    CHECK(at_none(desk_string(BAG, 1, LENT("grade"))));
    // sheet: 25, 24, 26, 21, 22, 23, 20, in this order
    CHECK(listed(desk_sheet(NONE, NONE, NONE, NONE, NONE, NONE, 9, sheet, 400, 401), DESK_REFUSED_SHEET_ROOM, 0));
    CHECK(listed(desk_sheet(NONE, NONE, NONE, NONE, NONE, NONE, 9, sheet, 400, 400 - DESK_ROW_BYTES + 1), DESK_REFUSED_SHEET_ROOM, 0));
    CHECK(listed(desk_sheet(NONE, NONE, NONE, NONE, NONE, NONE, 9, sheet, 400, 400 - DESK_ROW_BYTES), DESK_REFUSED_BAG, 0));
    CHECK(listed(desk_sheet(NONE, NONE, QUESTION, LENT("system"), NONE, NONE, 0, sheet, DESK_ROW_BYTES - 1, 0), DESK_REFUSED_SHEET_ROOM, 0));
    CHECK(listed(desk_sheet(NONE, NONE, QUESTION, NONE, NONE, NONE, 2, sheet, 400, 0), DESK_REFUSED_START, 0));
    CHECK(listed(desk_sheet(NONE, NONE, QUESTION, NONE, NONE, NONE, 1, sheet, 400, 0), DESK_REFUSED_SUBJECT, 0));
    CHECK(listed(desk_sheet(NONE, NONE, QUESTION, LENT("tool:A"), NONE, NONE, 0, sheet, 400, 0), DESK_REFUSED_ACTION, 0));
    CHECK(listed(desk_sheet(NONE, NONE, QUESTION, LENT("tool:A"), LENT("teach"), NONE, 0, sheet, 400, 0), DESK_REFUSED_RESOURCE, 0));
    CHECK(listed(desk_sheet(TEXT, table, 400, QUESTION, REQUEST, 0, sheet, 400, 0), DESK_REFUSED_OTHER_TABLE, 0));
    // rows: no question
    CHECK(desk_rows(LENT("\0\0\0")) == 0);
}

// A request as it is lent: its parts behind their length bytes.
#define GOOD "\11person:K7\5teach\7shaft:A"
#define SYSTEM "\6system\0\0"

// tally: 27, 24, and then for each request in turn, but for the system, 21, 22, 23, 20
static void tallies(void) {
    uint8_t *table = lent + 100;
    uint32_t *counts = numbers + 10;
    CHECK(desk_tally(NONE, NONE, NONE, 0, NONE, counts) == DESK_REFUSED_REQUESTS);
    CHECK(desk_tally(NONE, NONE, NONE, DESK_MOST_REQUESTS + 1, NONE, counts) == DESK_REFUSED_REQUESTS);
    CHECK(desk_tally(NONE, NONE, QUESTION, SIZE_MAX, LENT(GOOD), counts) == DESK_REFUSED_REQUESTS);
    CHECK(desk_tally(NONE, NONE, NONE, 1, NONE, counts) == DESK_REFUSED_BAG);
    CHECK(desk_tally(NONE, NONE, LENT("\0\0\0"), 1, LENT(SYSTEM), counts) == DESK_REFUSED_BAG);
    CHECK(desk_tally(NONE, NONE, QUESTION, 1, NONE, counts) == DESK_REFUSED_SUBJECT);
    CHECK(desk_tally(NONE, NONE, QUESTION, 1, LENT("\11person:K"), counts) == DESK_REFUSED_SUBJECT);
    CHECK(desk_tally(NONE, NONE, QUESTION, 1, LENT("\11person:K7"), counts) == DESK_REFUSED_ACTION);
    CHECK(desk_tally(NONE, NONE, QUESTION, 1, LENT("\11person:K7\5teach\7shaft:"), counts) == DESK_REFUSED_RESOURCE);
    CHECK(desk_tally(TEXT, table, 400, QUESTION, 1, LENT(GOOD), counts) == DESK_REFUSED_OTHER_TABLE);
    CHECK(desk_tally(NONE, NONE, QUESTION, 2, LENT(GOOD), counts) == DESK_REFUSED_SUBJECT);
    CHECK(desk_tally(NONE, NONE, QUESTION, 2, LENT(GOOD "\6tool:A\0\7shaft:A"), counts) == DESK_REFUSED_ACTION);
    CHECK(desk_tally(NONE, NONE, QUESTION, 3, LENT(SYSTEM GOOD "\6tool:A\1x\4lift"), counts) == DESK_REFUSED_RESOURCE);
    CHECK(desk_tally(TEXT, table, 400, QUESTION, 2, LENT(GOOD "\0\0\0"), counts) == DESK_REFUSED_OTHER_TABLE);
    CHECK(desk_tally(TEXT, table, 400, QUESTION, 2, LENT(SYSTEM "\0\0\0"), counts) == DESK_REFUSED_SUBJECT);
    CHECK(desk_tally(TEXT, table, 400, QUESTION, 2, LENT(SYSTEM GOOD), counts) == DESK_REFUSED_OTHER_TABLE);
}

#define WORDS LENT("\4firm\1f\1\5grade\1g\3")
#define ACTIONS LENT("\5teach")
static int no_permit(DeskLock l, unsigned refusal) { return l.refusal == refusal && l.length == 0; }

// lock: 28 for each part that is lent, then 29
static void locks(void) {
    uint8_t *room = lent + 300;
    CHECK(no_permit(desk_lock(LENT("\4fir"), LENT("firm:own"), ACTIONS, LENT("shaft:A"), room, 300), DESK_REFUSED_LOCK));
    CHECK(no_permit(desk_lock(LENT("\4firm\2if\1"), LENT("firm:own"), ACTIONS, LENT("shaft:A"), room, 300), DESK_REFUSED_LOCK));
    CHECK(no_permit(desk_lock(LENT("\4firm\1f\4"), LENT("firm:own"), ACTIONS, LENT("shaft:A"), room, 300), DESK_REFUSED_LOCK));
    CHECK(no_permit(desk_lock(LENT("\4firm\1f\1\4firm\1g\1"), LENT("firm:own"), ACTIONS, LENT("shaft:A"), room, 300), DESK_REFUSED_LOCK));
    CHECK(no_permit(desk_lock(WORDS, LENT("firm:own &"), ACTIONS, LENT("shaft:A"), room, 300), DESK_REFUSED_LOCK));
    CHECK(no_permit(desk_lock(WORDS, LENT("flag:own"), ACTIONS, LENT("shaft:A"), room, 300), DESK_REFUSED_LOCK));
    CHECK(no_permit(desk_lock(WORDS, LENT("grade:3"), ACTIONS, LENT("shaft:A"), room, 300), DESK_REFUSED_LOCK));
    CHECK(no_permit(desk_lock(WORDS, LENT("grade>1234567890123456"), ACTIONS, LENT("shaft:A"), room, 300), DESK_REFUSED_LOCK));
    CHECK(no_permit(desk_lock(WORDS, LENT("firm:own"), LENT("\6teach"), LENT("shaft:A"), room, 300), DESK_REFUSED_LOCK));
    CHECK(no_permit(desk_lock(WORDS, LENT("firm:own"), NONE, LENT("shaft:A"), room, 300), DESK_REFUSED_LOCK));
    CHECK(no_permit(desk_lock(WORDS, LENT("firm:own"), ACTIONS, LENT("shaft:\"A"), room, 300), DESK_REFUSED_LOCK));
    CHECK(no_permit(desk_lock(WORDS, LENT("firm:own &"), ACTIONS, LENT("shaft:A"), room, 0), DESK_REFUSED_LOCK));
    CHECK(no_permit(desk_lock(WORDS, LENT("firm:own"), ACTIONS, LENT("shaft:A"), room, 91), DESK_REFUSED_PERMIT_ROOM));
    CHECK(no_permit(desk_lock(WORDS, LENT("firm:own"), ACTIONS, LENT("shaft:A"), NONE), DESK_REFUSED_PERMIT_ROOM));
    CHECK(no_permit(desk_lock(NONE, NONE, NONE, NONE, NONE), DESK_REFUSED_LOCK));
    // 92 bytes are enough; what stands before and behind them stays
    uint8_t own[100];
    memset(own, 0xAA, sizeof own);
    DeskLock l = desk_lock(WORDS, LENT("firm:own"), ACTIONS, LENT("shaft:A"), own + 4, 92);
    CHECK(l.refusal == 0 && l.length == 92);
    CHECK(memcmp(own, "\xAA\xAA\xAA\xAApermit(principal, action in [\"teach\"], resource == \"shaft:A\") when { principal.f == \"own\" };\xAA\xAA\xAA\xAA", sizeof own) == 0);
}

// The refusal that every call gives that is lent this text and table; 99 where they differ, or desk_begins says otherwise.
static unsigned with_table(const uint8_t *text, size_t text_length, const uint8_t *table, size_t table_length) {
    static uint8_t sheet[DESK_ROW_BYTES];
    static uint32_t counts[DESK_TALLY_COUNTS];
    unsigned refusal = desk_decide(text, text_length, table, table_length, BAG, REQUEST).refusal;
    int same_refusal = desk_sheet(text, text_length, table, table_length, QUESTION, REQUEST, 0, sheet, sizeof sheet, 0).refusal == refusal && desk_tally(text, text_length, table, table_length, QUESTION, 1, LENT(GOOD), counts) == refusal;
    return same_refusal && desk_begins(text, text_length, table, table_length) == (refusal == 0) ? refusal : 99;
}

// A table of each version, cut to its used bytes, is good. Kinds 29 and 36 begin one; any other first byte, one between the versions and one past them too, gets 20, and so does a table
// whose policies record different versions.
static void tables(void) {
    static const char two[] = "permit(principal,action,resource);forbid(principal is tool,action,resource)when{!(env.a==1)};";
    static uint8_t first[DESK_TABLE_FOR_A_BYTE * sizeof two], second[DESK_TABLE_FOR_A_BYTE * sizeof two];
    DeskCompiled c = desk_compile(TEXT, second, sizeof second, SECOND);
    CHECK(c.refusal == 0 && c.policies == 1 && c.bytes == 20 && with_table(TEXT, second, c.bytes) == 0 && with_table(TEXT, second, c.bytes - 1) == DESK_REFUSED_OTHER_TABLE);
    CHECK(second[0] == 36 && with_table(TEXT, second, 0) == DESK_REFUSED_OTHER_TABLE);
    for (unsigned kind = 0; kind < 256; kind++) {
        second[0] = (uint8_t)kind;
        CHECK(with_table(TEXT, second, c.bytes) == (kind == 29 || kind == 36 ? 0 : DESK_REFUSED_OTHER_TABLE));
    }
    c = desk_compile(LENT(two), first, sizeof first, FIRST);
    CHECK(c.refusal == 0 && desk_compile(LENT(two), second, sizeof second, SECOND).bytes == c.bytes);
    CHECK(with_table(LENT(two), first, c.bytes) == 0 && with_table(LENT(two), second, c.bytes) == 0);
    CHECK(first[0] == 29 && second[0] == 36 && first[20] == 30 && second[20] == 37);
    for (size_t i = 0; i < c.bytes; i++) CHECK(second[i] == first[i] + (i == 0 || i == 20 ? 7 : 0));
    first[0] = 36, second[0] = 29;
    CHECK(with_table(LENT(two), first, c.bytes) == DESK_REFUSED_OTHER_TABLE && with_table(LENT(two), second, c.bytes) == DESK_REFUSED_OTHER_TABLE);
    // a text without policies has no version: any table will do
    CHECK(with_table(LENT(" "), first, c.bytes) == 0 && with_table(LENT(" "), second, c.bytes) == 0 && with_table(LENT(" "), NONE) == 0);
}

static void nulls(void) {
    CHECK(compiled(desk_compile(NONE, NONE, FIRST), 0, 0, 0, 0));
    CHECK(compiled(desk_compile(NONE, NONE, SECOND), 0, 0, 0, 0));
    CHECK(desk_begins(NONE, NONE));
    CHECK(decided(desk_decide(NONE, NONE, NONE, NONE, NONE, NONE), DESK_REFUSED_SUBJECT, 0));
    CHECK(decided(desk_decide(NONE, NONE, NONE, LENT("system"), NONE, NONE), 0, 4));
    CHECK(decided(desk_decide(NONE, NONE, BAG, REQUEST), 0, 3));
    CHECK(found(desk_lookup(NONE, 1, NONE), DESK_REFUSED_BAG));
    CHECK(found(desk_lookup(BAG, 1, NONE), 0));
    CHECK(at_none(desk_string(NONE, 1, NONE)));
    CHECK(listed(desk_sheet(NONE, NONE, NONE, NONE, NONE, NONE, 0, NONE, 0), DESK_REFUSED_SHEET_ROOM, 0));
    CHECK(listed(desk_sheet(NONE, NONE, QUESTION, REQUEST, 0, lent, sizeof lent, 0), 0, 1));
    CHECK(desk_rows(NONE) == 0);
    CHECK(desk_tally(NONE, NONE, NONE, 1, NONE, numbers + 10) == DESK_REFUSED_BAG);
    CHECK(desk_tally(NONE, NONE, QUESTION, 8, NONE, numbers + 10) == DESK_REFUSED_SUBJECT);
}

int main(void) {
    memset(lent, 0xAA, sizeof lent);
    memcpy(copy, lent, sizeof lent);
    memset(numbers, 0xAA, sizeof numbers);
    memcpy(same, numbers, sizeof numbers);
    static const uint64_t none[] = {0, 3, 257, ((uint64_t)1 << 32) + 1, ((uint64_t)1 << 32) + 2, (uint64_t)1 << 63, UINT64_MAX};
    texts(FIRST);
    texts(SECOND);
    for (size_t i = 0; i < sizeof none / sizeof *none; i++) no_version(none[i]);
    refusals();
    tables();
    tallies();
    locks();
    nulls();
    printf("%d checks, %d failed\n", made, failed);
    return failed != 0;
}

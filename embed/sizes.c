// Each constant of desk.h held to the desk: a size passes at its number and not one above, under each version, an outcome, a root and a kind are answered where they must be. Prints how many checks were
// made; a check that fails is printed and ends it with status 1. (The refusals by their names are refused.c's; what stands in texts, embed/rules.c has.)
#include "desk.h"
#include <stdio.h>
#include <string.h>

#define LENT(s) (const uint8_t *)(s), sizeof(s) - 1
#define P "permit(principal,action,resource)"

static int made, failed;
static uint8_t built[1 << 16], table[DESK_TABLE_FOR_A_BYTE * (DESK_MOST_TEXT + 1)];
static size_t length;

static void check(int holds, const char *what) {
    made++;
    if (holds) return;
    printf("FAILED: %s\n", what);
    failed++;
}
#define CHECK(holds) check(holds, #holds)

// ---- building

static void begin(void) { length = 0; }
static void byte(unsigned b) { built[length++] = (uint8_t)b; }
static void put(const char *s) {
    memcpy(built + length, s, strlen(s));
    length += strlen(s);
}
static void times(size_t n, const char *s) {
    while (n-- > 0) put(s);
}

// ---- texts

// Under both versions alike; 99 where they differ.
static unsigned compiled(void) {
    unsigned second = desk_compile(built, length, table, sizeof table, DESK_RULES_VERSION_2).refusal;
    return desk_compile(built, length, table, sizeof table, DESK_RULES_VERSION_1).refusal == second ? second : 99;
}

// The refusal of the policy whose condition is `before`, n times `part`, and `after`.
static unsigned condition(const char *before, size_t n, const char *part, const char *after) {
    begin();
    put(P "when{");
    put(before);
    times(n, part);
    put(after);
    put("};");
    return compiled();
}

static unsigned nested(size_t levels) {
    begin();
    put(P "when{");
    times(levels - 1, "(");
    put("true");
    times(levels - 1, ")");
    put("};");
    return compiled();
}

static unsigned repeated(size_t n, const char *part) {
    begin();
    times(n, part);
    return compiled();
}

static void texts(void) {
    CHECK(repeated(DESK_MOST_TEXT, " ") == 0);
    CHECK(repeated(DESK_MOST_TEXT + 1, " ") == DESK_REFUSED_LONG_TEXT);
    for (uint64_t version = DESK_RULES_VERSION_1 - 1; version <= DESK_RULES_VERSION_2 + 1; version++) {
        int is = version == DESK_RULES_VERSION_1 || version == DESK_RULES_VERSION_2;
        CHECK(desk_compile(LENT(P ";"), table, DESK_TABLE_FOR_A_BYTE * 34, version).refusal == (is ? 0 : DESK_REFUSED_VERSION));
        CHECK(desk_compile(LENT(P ";"), table, DESK_TABLE_FOR_A_BYTE * 34 - 1, version).refusal == (is ? DESK_REFUSED_SMALL_TABLE : DESK_REFUSED_VERSION));
    }
    CHECK(repeated(DESK_MOST_POLICIES, P ";") == 0);
    CHECK(repeated(DESK_MOST_POLICIES + 1, P ";") == DESK_REFUSED_MANY_POLICIES);
    CHECK(condition("principal.", DESK_MOST_WORD, "a", "==1") == 0);
    CHECK(condition("principal.", DESK_MOST_WORD + 1, "a", "==1") == DESK_REFUSED_LONG_TOKEN);
    CHECK(condition("principal.", (DESK_MOST_PATH - 2) / 2, "a.", "aa==1") == 0);
    CHECK(condition("principal.", (DESK_MOST_PATH - 2) / 2, "a.", "aaa==1") == DESK_REFUSED_LONG_PATH);
    CHECK(condition("1==\"", DESK_MOST_TEXT_STRING, "a", "\"") == 0);
    CHECK(condition("1==\"", DESK_MOST_TEXT_STRING + 1, "a", "\"") == DESK_REFUSED_LONG_TOKEN);
    CHECK(condition("1==", DESK_MOST_DIGITS, "1", "") == 0);
    CHECK(condition("1==", DESK_MOST_DIGITS + 1, "1", "") == DESK_REFUSED_LONG_TOKEN);
    CHECK(condition("1 in [1", DESK_MOST_LITERALS - 1, ",1", "]") == 0);
    CHECK(condition("1 in [1", DESK_MOST_LITERALS, ",1", "]") == DESK_REFUSED_MANY_LITERALS);
    CHECK(condition("1 like \"", DESK_MOST_PATTERN, "a", "\"") == 0);
    CHECK(condition("1 like \"", DESK_MOST_PATTERN + 1, "a", "\"") == DESK_REFUSED_PATTERN);
    // a pattern's characters are counted, a string's bytes
    CHECK(condition("1 like \"", DESK_MOST_TEXT_STRING - DESK_MOST_PATTERN, "\u00FC", "aaaaaaaaaaaaaaaaaaaaaaaaaaaaaaaaaaaaaaaaaaaaaaaaaaaaaaaaaaaaaaaaaaaaaaaaa\"") == 0);
    CHECK(condition("1 like \"", DESK_MOST_TEXT_STRING / 2, "\u00FC", "\"") == 0);
    CHECK(condition("1 like \"", DESK_MOST_TEXT_STRING / 2 + 1, "\u00FC", "\"") == DESK_REFUSED_LONG_TOKEN);
    CHECK(condition("1 == \"", 1, "\xFC", "\"") == DESK_REFUSED_NOT_UTF8);
    CHECK(condition("1 like \"", DESK_MOST_PATTERN + 1, "\x80", "\"") == DESK_REFUSED_NOT_UTF8);
    CHECK(condition("1 like \"", DESK_MOST_WILDCARDS, "*a", "\"") == 0);
    CHECK(condition("1 like \"", DESK_MOST_WILDCARDS + 1, "*a", "\"") == DESK_REFUSED_PATTERN);
    CHECK(nested(DESK_MOST_LEVELS) == 0);
    CHECK(nested(DESK_MOST_LEVELS + 1) == DESK_REFUSED_DEPTH);
}

// ---- bags and questions

static int is_bag(void) { return desk_lookup(built, length, DESK_ROOT_PRINCIPAL, NULL, 0).refusal != DESK_REFUSED_BAG; }

// A bag with entries of one flag each.
static int entries(size_t n) {
    begin();
    byte((unsigned)n);
    for (size_t i = 0; i < n; i++) byte(2), byte('a' + (unsigned)i / 26), byte('a' + (unsigned)i % 26), byte(DESK_KIND_FLAG), byte(1);
    byte(0), byte(0);
    return is_bag();
}

// A bag with a list of so many strings, each of so many bytes.
static int list(size_t strings, size_t bytes) {
    begin();
    byte(1), byte(1), byte('a'), byte(DESK_KIND_LIST), byte((unsigned)strings);
    while (strings-- > 0) byte((unsigned)bytes), times(bytes, "x");
    byte(0), byte(0);
    return is_bag();
}

// Whether so many bytes are a bag: two lists of 16 strings, and a third that fills it up; -1 if there are not so many.
static int of_bytes(size_t bytes) {
    begin();
    byte(3);
    for (unsigned i = 0; i < 3; i++) {
        size_t strings = i < 2 ? DESK_MOST_STRINGS : 1;
        byte(1), byte('a' + i), byte(DESK_KIND_LIST);
        size_t count = length;
        byte((unsigned)strings);
        if (i < 2) {
            while (strings-- > 0) byte(120), times(120, "x");
            continue;
        }
        for (built[count] = 0; length + 2 < bytes; built[count]++) {
            size_t left = bytes - length - 3;
            size_t some = left > DESK_MOST_STRING ? DESK_MOST_STRING - 27 : left;
            byte((unsigned)some), times(some, "x");
        }
    }
    byte(0), byte(0);
    return length == bytes ? is_bag() : -1;
}

static size_t columns(size_t n, size_t candidates) {
    begin();
    byte(0), byte(0), byte(0), byte((unsigned)n);
    for (size_t i = 0; i < n; i++) {
        byte(DESK_ROOT_ENV), byte(1), byte('a' + (unsigned)i), byte((unsigned)candidates);
        for (size_t c = 0; c < candidates; c++) byte(DESK_KIND_STRING), byte(1), byte('a' + (unsigned)c);
    }
    return desk_rows(built, length);
}

static void bags(void) {
    CHECK(entries(DESK_MOST_ENTRIES));
    CHECK(!entries(DESK_MOST_ENTRIES + 1));
    CHECK(list(1, DESK_MOST_STRING));
    CHECK(!list(1, DESK_MOST_STRING + 1));
    CHECK(list(DESK_MOST_STRINGS, 1));
    CHECK(!list(DESK_MOST_STRINGS + 1, 1));
    CHECK(of_bytes(DESK_MOST_BAG) == 1);
    CHECK(of_bytes(DESK_MOST_BAG + 1) == 0);
    CHECK(columns(DESK_MOST_COLUMNS, 2) == 64);
    CHECK(columns(DESK_MOST_COLUMNS + 1, 1) == 0);
    CHECK(columns(1, DESK_MOST_CANDIDATES) == DESK_MOST_CANDIDATES);
    CHECK(columns(1, DESK_MOST_CANDIDATES + 1) == 0);
}

// ---- requests, outcomes, roots, kinds

static DeskDecision decided(const char *text, const char *subject) {
    size_t used = desk_compile((const uint8_t *)text, strlen(text), table, sizeof table, DESK_RULES_VERSION_1).bytes;
    return desk_decide((const uint8_t *)text, strlen(text), table, used, LENT("\0\0\0"), (const uint8_t *)subject, strlen(subject), LENT("teach"), LENT("shaft:A"));
}

static unsigned asked_by(size_t bytes) {
    static char subject[200];
    memset(subject, 'x', sizeof subject);
    memcpy(subject, "tool:", 5);
    return desk_decide(NULL, 0, NULL, 0, LENT("\0\0\0"), (const uint8_t *)subject, bytes, LENT("teach"), LENT("shaft:A")).refusal;
}

static unsigned kind(unsigned root, const char *path) {
    static const char bag[] = "\4\1" "a" "\1\0" "\1" "b" "\2\0\0\0\0\0\0\0\0" "\1" "c" "\3\1" "\1" "d" "\4\0" "\1\1" "e" "\3\1" "\1\1" "f" "\3\1";
    return desk_lookup(LENT(bag), (uint8_t)root, (const uint8_t *)path, 1).kind;
}

static void answers(void) {
    static uint8_t sheet[DESK_ROW_BYTES];
    CHECK(decided(P ";", "tool:1").outcome == DESK_ALLOWED);
    CHECK(decided("forbid(principal,action,resource);", "tool:1").outcome == DESK_FORBIDDEN);
    CHECK(decided("", "tool:1").outcome == DESK_NOTHING_SATISFIED);
    CHECK(decided("", "system").outcome == DESK_SYSTEM);
    CHECK(asked_by(DESK_MOST_REQUEST_PART) == 0);
    CHECK(asked_by(DESK_MOST_REQUEST_PART + 1) == DESK_REFUSED_SUBJECT);
    CHECK(kind(DESK_ROOT_PRINCIPAL, "a") == DESK_KIND_STRING);
    CHECK(kind(DESK_ROOT_PRINCIPAL, "b") == DESK_KIND_NUMBER);
    CHECK(kind(DESK_ROOT_PRINCIPAL, "c") == DESK_KIND_FLAG);
    CHECK(kind(DESK_ROOT_PRINCIPAL, "d") == DESK_KIND_LIST);
    CHECK(kind(DESK_ROOT_PRINCIPAL, "e") == DESK_KIND_ABSENT);
    CHECK(kind(DESK_ROOT_RESOURCE, "e") == DESK_KIND_FLAG);
    CHECK(kind(DESK_ROOT_ENV, "f") == DESK_KIND_FLAG);
    CHECK(desk_sheet(NULL, 0, NULL, 0, LENT("\0\0\0\0"), LENT("system"), NULL, 0, NULL, 0, 0, sheet, DESK_ROW_BYTES, 0).written == 1);
    CHECK(desk_sheet(NULL, 0, NULL, 0, LENT("\0\0\0\0"), LENT("system"), NULL, 0, NULL, 0, 0, sheet, DESK_ROW_BYTES - 1, 0).refusal == DESK_REFUSED_SHEET_ROOM);
}

// ---- marks

static char rules[DESK_MOST_TEXT + 1];

// As many policies as there may be, permits but for the one that forbids; satisfied for a person are those of the mark.
static const char *marked(uint64_t mark, size_t forbid) {
    rules[0] = 0;
    for (size_t n = 1; n <= DESK_MOST_POLICIES; n++) {
        strcat(rules, n == forbid ? "forbid(" : "permit(");
        strcat(rules, mark >> (n - 1) & 1 ? "principal,action,resource);" : "principal is tool,action,resource);");
    }
    return rules;
}

// A decision with this outcome, policy and mark; and the one row of the sheet if it is listed, in bytes of its own between others.
static int says(const char *text, const char *subject, unsigned outcome, size_t policy, uint64_t mark) {
    uint8_t sheet[DESK_ROW_BYTES + 2];
    DeskDecision d = decided(text, subject);
    memset(sheet, 0xAA, sizeof sheet);
    DeskPage p = desk_sheet((const uint8_t *)text, strlen(text), table, sizeof table, LENT("\0\0\0\0"), (const uint8_t *)subject, strlen(subject), LENT("teach"), LENT("shaft:A"), 0, sheet + 1, DESK_ROW_BYTES, 0);
    int lists = outcome == DESK_ALLOWED || outcome == DESK_SYSTEM, right = d.refusal == 0 && d.outcome == outcome && d.policy == policy && d.mark == mark;
    right = right && p.refusal == 0 && p.next == 1 && p.written == (size_t)lists && sheet[0] == 0xAA && sheet[DESK_ROW_BYTES + 1] == 0xAA;
    const uint8_t row[] = {0, 0, 0, 0, (uint8_t)outcome, (uint8_t)policy};
    for (size_t i = 0; i < DESK_ROW_BYTES; i++) right = right && sheet[1 + i] == (!lists ? 0xAA : i < sizeof row ? row[i] : (uint8_t)(mark >> 8 * (i - sizeof row)));
    return right;
}

static void marks(void) {
    const uint64_t first = 1, last = (uint64_t)1 << (DESK_MOST_POLICIES - 1), all = UINT64_MAX, some = 0x8070605040302011;
    CHECK(says(marked(0, 0), "person:1", DESK_NOTHING_SATISFIED, 0, 0));
    CHECK(says(marked(first, 0), "person:1", DESK_ALLOWED, 1, first));
    CHECK(says(marked(last, 0), "person:1", DESK_ALLOWED, DESK_MOST_POLICIES, last));
    CHECK(says(marked(first | last, 0), "person:1", DESK_ALLOWED, 1, first | last));
    CHECK(says(marked(some, 0), "person:1", DESK_ALLOWED, 1, some));
    // a forbid before the permits, after them and between them, and one that is not satisfied
    CHECK(says(marked(first | last, 1), "person:1", DESK_FORBIDDEN, 1, first | last));
    CHECK(says(marked(first | last, DESK_MOST_POLICIES), "person:1", DESK_FORBIDDEN, DESK_MOST_POLICIES, first | last));
    CHECK(says(marked(all, 32), "person:1", DESK_FORBIDDEN, 32, all));
    CHECK(says(marked(some, 2), "person:1", DESK_ALLOWED, 1, some));
    // for a tool all are satisfied, for the system none
    CHECK(says(marked(some, 0), "tool:1", DESK_ALLOWED, 1, all));
    CHECK(says(marked(all, 0), "system", DESK_SYSTEM, 0, 0));
}

// ---- tallies

static uint32_t counts[DESK_TALLY_COUNTS];

// Of so many requests of the system, over one row.
static unsigned tallied(size_t many) {
    begin();
    for (size_t i = 0; i < many; i++) put("\6system"), byte(0), byte(0);
    return desk_tally(NULL, 0, NULL, 0, LENT("\0\0\0\0"), many, built, length, counts);
}

static void tallies(void) {
    CHECK(tallied(1) == 0 && counts[DESK_SYSTEM - 1] == 1 && counts[DESK_TALLY_GROUP + DESK_SYSTEM - 1] == 0);
    CHECK(tallied(DESK_MOST_REQUESTS + 1) == DESK_REFUSED_REQUESTS && counts[DESK_SYSTEM - 1] == 1);
    CHECK(tallied(DESK_MOST_REQUESTS) == 0);
    for (size_t i = 0; i < DESK_MOST_REQUESTS; i++) CHECK(counts[DESK_TALLY_GROUP * i + DESK_SYSTEM - 1] == 1);
    CHECK(counts[DESK_TALLY_GROUP * DESK_TALLY_SUMS + DESK_SYSTEM - 1] == DESK_MOST_REQUESTS);
    // The last policy's is the last count of a group, and its sum the last of all.
    begin();
    times(DESK_MOST_POLICIES - 1, "permit(principal is person,action,resource);");
    put(P ";");
    CHECK(compiled() == 0);
    CHECK(desk_tally(built, length, table, sizeof table, LENT("\0\0\0\0"), 2, LENT("\10person:A\1x\7shaft:A\6tool:A\1x\7shaft:A"), counts) == 0);
    CHECK(counts[DESK_ALLOWED - 1] == 1 && counts[DESK_TALLY_OUTCOMES] == 1 && counts[DESK_TALLY_GROUP - 1] == 0);
    CHECK(counts[2 * DESK_TALLY_GROUP - 1] == 1 && counts[DESK_TALLY_COUNTS - 1] == 1 && counts[DESK_TALLY_GROUP * DESK_TALLY_SUMS] == 2);
}

// ---- locks

// A lock of so many tests of a value of so many bytes, over so many words and paths of so many bytes, with so many actions of so many bytes; the room has so many.
static DeskLock locked(size_t words, size_t path, size_t tests, size_t value, size_t actions, size_t action, size_t room) {
    static uint8_t permit[DESK_MOST_PERMIT];
    begin();
    for (size_t i = 0; i < words; i++) byte(1), byte('a' + (unsigned)i), byte((unsigned)path), times(path, "p"), byte(DESK_SORT_MEMBERSHIP);
    size_t lock = length;
    for (size_t i = 0; i < tests; i++) put(i > 0 ? "&a:" : "a:"), times(value, "v");
    size_t list = length;
    for (size_t i = 0; i < actions; i++) byte((unsigned)action), times(action, "x");
    size_t resource = length;
    times(action, "r");
    return desk_lock(built, lock, built + lock, list - lock, built + list, resource - list, built + resource, length - resource, permit, room);
}

static unsigned tested(const char *word, unsigned sort, const char *lock) {
    static uint8_t permit[200];
    begin();
    byte((unsigned)strlen(word)), put(word), byte(1), byte('a'), byte(sort);
    return desk_lock(built, length, (const uint8_t *)lock, strlen(lock), LENT("\1x"), LENT("y"), permit, sizeof permit).refusal;
}

static void locks(void) {
    CHECK(locked(DESK_MOST_LOCK_WORDS, 1, 1, 1, 1, 1, 200).refusal == 0);
    CHECK(locked(DESK_MOST_LOCK_WORDS + 1, 1, 1, 1, 1, 1, 200).refusal == DESK_REFUSED_LOCK);
    CHECK(locked(1, 1, DESK_MOST_TESTS, 1, 1, 1, 1000).refusal == 0);
    CHECK(locked(1, 1, DESK_MOST_TESTS + 1, 1, 1, 1, 1000).refusal == DESK_REFUSED_LOCK);
    CHECK(locked(1, 1, 1, 1, DESK_MOST_LITERALS, 1, 1000).refusal == 0);
    CHECK(locked(1, 1, 1, 1, DESK_MOST_LITERALS + 1, 1, 1000).refusal == DESK_REFUSED_LOCK);
    CHECK(locked(1, DESK_MOST_PATH + 1, 1, 1, 1, 1, 1000).refusal == DESK_REFUSED_LOCK);
    CHECK(locked(1, 1, 1, DESK_MOST_TEXT_STRING + 1, 1, 1, 1000).refusal == DESK_REFUSED_LOCK);
    CHECK(locked(1, 1, 1, 1, 1, DESK_MOST_TEXT_STRING + 1, 1000).refusal == DESK_REFUSED_LOCK);
    // the longest permit there is, and its room
    DeskLock l = locked(DESK_MOST_LOCK_WORDS, DESK_MOST_PATH, DESK_MOST_TESTS, DESK_MOST_TEXT_STRING, DESK_MOST_LITERALS, DESK_MOST_TEXT_STRING, DESK_MOST_PERMIT);
    CHECK(l.refusal == 0 && l.length == DESK_MOST_PERMIT);
    l = locked(DESK_MOST_LOCK_WORDS, DESK_MOST_PATH, DESK_MOST_TESTS, DESK_MOST_TEXT_STRING, DESK_MOST_LITERALS, DESK_MOST_TEXT_STRING, DESK_MOST_PERMIT - 1);
    CHECK(l.refusal == DESK_REFUSED_PERMIT_ROOM && l.length == 0);
    // the sorts
    CHECK(tested("w", DESK_SORT_EQUALITY, "w:v") == 0 && tested("w", DESK_SORT_EQUALITY, "w>3") == DESK_REFUSED_LOCK);
    CHECK(tested("w", DESK_SORT_MEMBERSHIP, "w:v") == 0 && tested("w", DESK_SORT_MEMBERSHIP, "w>3") == DESK_REFUSED_LOCK);
    CHECK(tested("w", DESK_SORT_NUMBER, "w>3") == 0 && tested("w", DESK_SORT_NUMBER, "w:3") == DESK_REFUSED_LOCK);
    CHECK(tested("w", DESK_SORT_NUMBER + 1, "w:3") == DESK_REFUSED_LOCK && tested("w", 0, "w:3") == DESK_REFUSED_LOCK);
}

int main(void) {
    texts();
    bags();
    answers();
    marks();
    tallies();
    locks();
    printf("%d checks, %d failed\n", made, failed);
    return failed != 0;
}

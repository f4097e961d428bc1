// Holds the examples of docs/RULES.md and docs/BAGS.md to the proved desk, and what document 02 says of version 2. Standard input has a line for each example, its parts divided by tabs, as docs/rules.sh takes them from the pages.
// Prints how many there were; one that is answered otherwise is printed and ends it with status 1, and so does a refusal of a text that no example has.
#include "desk_more.h"
#include <stdio.h>
#include <stdlib.h>
#include <string.h>

#define REQUEST LENT("person:K7"), LENT("teach"), LENT("shaft:A1")
#define LENT(s) (const uint8_t *)(s), sizeof(s) - 1
#define TEXT (const uint8_t *)text, strlen(text)

enum { LONGEST = 1 << 16, PARTS = 8 };
static uint8_t attributes[DESK_MOST_BAG], bytes[DESK_MOST_BAG], table[8 * LONGEST];
static DeskBagWriter bag;
static size_t length; // of the bytes last read
static bool seen[32]; // the refusals of texts
static int asked, failed;

static void check(bool holds, const char *line) {
    asked++;
    if (holds) return;
    failed++;
    printf("FAILED: %.300s\n", line);
}

// ---- attributes, as the pages write them

// What stands for a byte in a string of a page, \xFC, becomes that byte; gives the length that is left.
static size_t with_bytes(char *s, size_t n) {
    size_t kept = 0;
    for (size_t at = 0; at < n; kept++) {
        char digits[3] = {0};
        bool byte = at + 3 < n && s[at] == '\\' && s[at + 1] == 'x';
        if (byte) memcpy(digits, s + at + 2, 2);
        s[kept] = byte ? (char)strtoul(digits, NULL, 16) : s[at];
        at += byte ? 4 : 1;
    }
    return kept;
}

static bool set_list(uint8_t root, DeskPath path, const char *at) {
    if (desk_bag_list(&bag, root, path) != DESK_WROTE) return false;
    while ((at = strchr(at, '"')) != NULL) {
        const char *end = strchr(at + 1, '"');
        if (end == NULL || desk_bag_list_string(&bag, root, path, at + 1, (size_t)(end - at - 1)) != DESK_WROTE) return false;
        at = end + 1;
    }
    return true;
}

static bool set_attribute(char *line) {
    char *dot = strchr(line, '.'), *equals = strstr(line, " = ");
    if (dot == NULL || equals == NULL) return false;
    uint8_t root = *line == 'p' ? DESK_ROOT_PRINCIPAL : *line == 'r' ? DESK_ROOT_RESOURCE : DESK_ROOT_ENV;
    DeskPath path = desk_path(dot + 1, (size_t)(equals - dot - 1));
    char *value = equals + 3;
    if (*value == '"') return desk_bag_string(&bag, root, path, value + 1, with_bytes(value + 1, strlen(value) - 2)) == DESK_WROTE;
    if (*value == '[') return set_list(root, path, value);
    if (*value == 't' || *value == 'f') return desk_bag_flag(&bag, root, path, *value == 't') == DESK_WROTE;
    return desk_bag_number(&bag, root, path, strtod(value, NULL)) == DESK_WROTE;
}

// ---- texts

static DeskDecision decided(uint64_t version, const char *text) {
    DeskCompiled c = desk_compile(TEXT, table, sizeof table, version);
    DeskDecision none = {c.refusal, 0, 0, 0};
    return c.refusal != 0 ? none : desk_decide(TEXT, table, c.bytes, bag.bytes, bag.length, REQUEST);
}

// Whether the one policy with this condition is satisfied, the condition between these words.
static bool is_satisfied(uint64_t version, const char *before, const char *condition, const char *behind) {
    static char text[LONGEST];
    snprintf(text, sizeof text, "permit(principal,action,resource)when{%s%s%s};", before, condition, behind);
    return decided(version, text).outcome == DESK_ALLOWED;
}

// A condition is true, or it is false, which ! makes true, or its policy is unsatisfied both ways.
static bool is_so(const char *what, uint64_t version, const char *condition) {
    bool is = is_satisfied(version, "", condition, ""), is_not = is_satisfied(version, "!(", condition, ")");
    if (strcmp(what, "true") == 0) return is && !is_not;
    if (strcmp(what, "false") == 0) return !is && is_not;
    return strcmp(what, "unsatisfied") == 0 && !is && !is_not;
}

// What document 02 says of the two versions: case I, the parts that are not met, those that are met first, and what is no absence. No page sets principal.unknown.
static void cases(void) {
    static const struct {
        const char *condition, *first, *second;
    } all[] = {
        {"principal.unknown != \"x\"", "false", "unsatisfied"},
        {"!(principal.unknown != \"x\")", "true", "unsatisfied"},
        {"false && principal.unknown == 1", "false", "false"},
        {"true || principal.unknown == 1", "true", "true"},
        {"if true then true else principal.unknown == 1", "true", "true"},
        {"if false then principal.unknown == 1 else true", "true", "true"},
        {"principal.unknown == 1 && false", "false", "unsatisfied"},
        {"principal.unknown == 1 || true", "true", "unsatisfied"},
        {"if principal.unknown == 1 then true else true", "true", "unsatisfied"},
        {"true && !!(1 in principal.unknown)", "false", "unsatisfied"},
        {"principal has unknown", "false", "false"},
        {"1 == \"1\"", "false", "false"},
        {"action.name != \"teach\"", "false", "false"},
    };
    for (size_t i = 0; i < sizeof all / sizeof *all; i++) {
        check(is_so(all[i].first, DESK_RULES_VERSION_1, all[i].condition), all[i].condition);
        check(is_so(all[i].second, DESK_RULES_VERSION_2, all[i].condition), all[i].condition);
    }
}

static bool decides(uint64_t version, const char *outcome, size_t policy, const char *text) {
    DeskDecision d = decided(version, text);
    unsigned wanted = strcmp(outcome, "allowed") == 0 ? DESK_ALLOWED : strcmp(outcome, "forbidden") == 0 ? DESK_FORBIDDEN : DESK_NOTHING_SATISFIED;
    return d.refusal == 0 && d.outcome == wanted && d.policy == policy;
}

static bool refused(uint64_t version, unsigned refusal, const char *place, const char *text) {
    DeskCompiled c = desk_compile(TEXT, table, sizeof table, version);
    char *rest;
    size_t line = strtoul(place, &rest, 10), column = strtoul(rest + 1, &rest, 10), bytes_refused = strtoul(rest + 1, NULL, 10);
    if (refusal < 32) seen[refusal] = true;
    return c.refusal == refusal && c.line == line && c.column == column && c.length == bytes_refused;
}

// ---- bytes

static bool read_bytes(const char *hex) {
    char *end;
    for (length = 0; length < sizeof bytes; hex = end) {
        unsigned long byte = strtoul(hex, &end, 16);
        if (end == hex) return *hex == 0;
        bytes[length++] = (uint8_t)byte;
    }
    return false;
}

static bool is_bag(void) { return desk_lookup(bytes, length, 1, NULL, 0).refusal == 0; }

static bool is_question(void) {
    uint8_t sheet[DESK_ROW_BYTES];
    return desk_sheet(NULL, 0, NULL, 0, bytes, length, LENT("system"), NULL, 0, NULL, 0, 0, sheet, sizeof sheet, 0).refusal == 0 && desk_rows(bytes, length) > 0;
}

static bool looked_up(char **part) {
    uint8_t root = (uint8_t)strtoul(part[1], NULL, 10);
    const uint8_t *path = (const uint8_t *)part[2];
    DeskValue v = desk_lookup(bytes, length, root, path, strlen(part[2]));
    DeskString s = desk_string(bytes, length, root, path, strlen(part[2]));
    char *rest;
    size_t start = strtoul(part[6], &rest, 10);
    return v.refusal == 0 && v.kind == strtoul(part[3], NULL, 10) && v.number == strtod(part[4], NULL) && v.place == strtoul(part[5], NULL, 10) && s.start == start && s.length == strtoul(rest + 1, NULL, 10);
}

// ---- lines

// The lines about rules have their version as the second part.
static bool holds(char **part, int parts) {
    const char *what = part[0];
    uint64_t version = parts > 1 ? strtoull(part[1], NULL, 10) : 0;
    if (parts == 2 && strcmp(what, "set") == 0) return set_attribute(part[1]);
    if (parts == 2 && strcmp(what, "bag") == 0) return read_bytes(part[1]) && is_bag();
    if (parts == 2 && strcmp(what, "question") == 0) return read_bytes(part[1]) && is_question();
    if (parts == 2 && strcmp(what, "no bag") == 0) return read_bytes(part[1]) && !is_bag();
    if (parts == 2 && strcmp(what, "no question") == 0) return read_bytes(part[1]) && !is_question();
    if (parts == 2 && strcmp(what, "rows") == 0) return desk_rows(bytes, length) == strtoul(part[1], NULL, 10);
    if (parts == 3 && strcmp(what, "accepted") == 0) return decided(version, part[2]).refusal == 0;
    if (parts == 3) return is_so(what, version, part[2]);
    if (parts == 5 && strcmp(what, "decided") == 0) return decides(version, part[2], strtoul(part[3], NULL, 10), part[4]);
    if (parts == 5 && strcmp(what, "refused") == 0) return refused(version, (unsigned)strtoul(part[2], NULL, 10), part[3], part[4]);
    if (parts == 7 && strcmp(what, "look") == 0) return looked_up(part);
    return false;
}

static void ask(char *line) {
    static char kept[LONGEST];
    char *part[PARTS];
    int parts = 0;
    line[strcspn(line, "\n")] = 0;
    snprintf(kept, sizeof kept, "%s", line);
    for (part[parts++] = line; parts < PARTS && (line = strchr(line, '\t')) != NULL; part[parts++] = line) *line++ = 0;
    check(holds(part, parts), kept);
}

int main(void) {
    static char line[LONGEST];
    desk_bag_begin(&bag, attributes, sizeof attributes);
    while (fgets(line, sizeof line, stdin) != NULL) ask(line);
    cases();
    for (unsigned r = DESK_REFUSED_LONG_TEXT; r <= DESK_REFUSED_NOT_UTF8; r++)
        if (r != DESK_REFUSED_SMALL_TABLE && !seen[r]) check(false, "a refusal of texts without an example");
    if (!seen[DESK_REFUSED_VERSION]) check(false, "a refusal of versions without an example");
    printf("%d examples, %d failed\n", asked, failed);
    return failed != 0 || asked < 100;
}

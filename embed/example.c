// The desk in a C program: document 01's example, under version 1 of the rules. It compiles the rules, decides one request, looks attributes up, prints the sheet page by page, tallies it
// for two requests, and prints a lock's permit; then it decides by one more rule under both versions, where they differ. It reads nothing from outside and needs no heap: all memory is the arrays below, lent to the calls. example.out has what it
// prints. Every thing that is lent has a type of its own (desk_slices.h), so that the compiler finds swapped arguments; the bag is written with desk_bags.c, the requests of the
// tally with desk_tallies.c, the words and actions of the lock with desk_locks.c, and desk_messages.c has the sentences of refusals.
#include "desk_more.h"
#include <inttypes.h>
#include <stdio.h>

static const char rules[] =
    "permit(principal is person, action, resource is shaft)\n"
    "  when { principal.grade >= 3 };\n"
    "forbid(principal, action in [\"teach\"], resource)\n"
    "  when { principal.hired != \"own\" };\n";

// A question: an empty base, and two columns: principal.grade (absent, 3, 2.5) and principal.hired (absent, "own", "loan"). docs/BAGS.md has its bytes one by one.
static const char asked[] = "\x00" "\x00" "\x00" "\x02"
    "\x01" "\x05" "grade" "\x03" "\x00" "\x02" "\x00\x00\x00\x00\x00\x00\x08\x40" "\x02" "\x00\x00\x00\x00\x00\x00\x04\x40"
    "\x01" "\x05" "hired" "\x03" "\x00" "\x01" "\x03" "own" "\x01" "\x04" "loan";

static uint8_t table[DESK_TABLE_FOR_A_BYTE * sizeof rules];
static uint8_t attributes[100];      // of the bag
static uint8_t page[DESK_ROW_BYTES]; // one row at a time: the smallest page there is
static uint8_t lent[DESK_REQUESTS_ROOM]; // the requests of the tally
static DeskCounts counts;

static int refused(uint32_t refusal) {
    printf("refused %u: %s\n", refusal, desk_message(refusal));
    return 1;
}

static int print_sheet(DeskText text, DeskTable compiled, DeskSubject who, DeskAction what, DeskResource which) {
    DeskQuestion question = desk_question(DESK_WORDS(asked));
    size_t rows = desk_rows_of(question), listed = 0, pages = 0;
    printf("rows %zu\n", rows);
    for (size_t start = 0; start < rows; pages++) {
        DeskPage p = desk_sheet_of(text, compiled, question, who, what, which, start, desk_sheet_room(page, sizeof page), 0);
        if (p.refusal != 0) return refused(p.refusal);
        for (size_t i = 0; i < p.written; i++) {
            DeskRow row = desk_row(page + DESK_ROW_BYTES * i);
            printf("%u %u %zu %" PRIu64 "\n", row.number, row.outcome, row.policy, row.mark);
        }
        listed += p.written;
        start = p.next;
    }
    printf("allowed %zu (%zu pages)\n", listed, pages);
    return 0;
}

static void print_group(const char *whose, size_t group, size_t policies) {
    printf("%s: allowed %u, forbidden %u, neither %u, system %u;", whose, desk_tally_outcome(&counts, group, DESK_ALLOWED), desk_tally_outcome(&counts, group, DESK_FORBIDDEN), desk_tally_outcome(&counts, group, DESK_NOTHING_SATISFIED), desk_tally_outcome(&counts, group, DESK_SYSTEM));
    for (size_t n = 1; n <= policies; n++) printf(" policy %zu decides %u%s", n, desk_tally_policy(&counts, group, n), n < policies ? "," : "\n");
}

// The person's request, and the same of a tool.
static int print_tally(DeskText text, DeskTable compiled, size_t policies, DeskSubject who, DeskAction what, DeskResource which) {
    DeskRequestsWriter writer;
    desk_requests_begin(&writer, lent, sizeof lent);
    if (desk_requests_add(&writer, who, what, which) != DESK_WROTE || desk_requests_add(&writer, desk_subject(DESK_WORDS("tool:T1")), what, which) != DESK_WROTE) return 1;
    uint32_t refusal = desk_tally_of(text, compiled, desk_question(DESK_WORDS(asked)), writer.many, desk_requests_written(&writer), &counts);
    if (refusal != 0) return refused(refusal);
    print_group("person:K7", 0, policies);
    print_group("tool:T1", 1, policies);
    print_group("both", DESK_TALLY_SUMS, policies);
    return 0;
}

// A caretaker's lock as a permit, in words and actions that are written with desk_locks.c.
static int print_permit(void) {
    static uint8_t words[DESK_VOCABULARY_ROOM], list[DESK_ACTIONS_ROOM], permit[DESK_MOST_PERMIT];
    DeskLockWriter vocabulary, actions;
    desk_lock_begin(&vocabulary, words, sizeof words);
    desk_lock_begin(&actions, list, sizeof list);
    if (desk_lock_word(&vocabulary, DESK_WORDS("firm"), desk_path(DESK_WORDS("firm")), DESK_SORT_EQUALITY) != DESK_WROTE || desk_lock_word(&vocabulary, DESK_WORDS("grade"), desk_path(DESK_WORDS("grade")), DESK_SORT_NUMBER) != DESK_WROTE || desk_lock_action(&actions, DESK_WORDS("teach")) != DESK_WROTE) return 1;
    DeskLock l = desk_lock_of(desk_vocabulary_written(&vocabulary), desk_lock_text(DESK_WORDS("firm:own & grade>=3")), desk_actions_written(&actions), desk_resource(DESK_WORDS("shaft:A")), desk_room(permit, sizeof permit));
    if (l.refusal != 0) return refused(l.refusal);
    printf("%.*s\n", (int)l.length, (const char *)permit);
    return 0;
}

// Who is not on loan may do all; and nobody noted who hired the person. Under version 1 what is absent is not "loan", and the permit is satisfied; under version 2 it is not.
// The version is named when compiling; the table records it, and deciding reads it there.
static int print_versions(DeskSubject who, DeskAction what, DeskResource which) {
    static const char rule[] = "permit(principal, action, resource) when { !(principal.hired == \"loan\") };";
    static uint8_t room[DESK_TABLE_FOR_A_BYTE * sizeof rule];
    DeskText text = desk_text(DESK_WORDS(rule));
    DeskBag nothing = desk_bag(DESK_WORDS("\x00\x00\x00"));
    for (uint64_t version = DESK_RULES_VERSION_1; version <= DESK_RULES_VERSION_2; version++) {
        DeskCompiled c = desk_compile_of(text, desk_table_room(room, sizeof room), version);
        if (c.refusal != 0) return refused(c.refusal);
        DeskDecision d = desk_decide_of(text, desk_table(room, c.bytes), nothing, who, what, which);
        printf("under version %" PRIu64 ": refusal %u, outcome %u, policy %zu, mark %" PRIu64 "\n", version, d.refusal, d.outcome, d.policy, d.mark);
    }
    return 0;
}

int main(void) {
    DeskText text = desk_text(DESK_WORDS(rules));
    DeskSubject who = desk_subject(DESK_WORDS("person:K7"));
    DeskAction what = desk_action(DESK_WORDS("teach"));
    DeskResource which = desk_resource(DESK_WORDS("shaft:A"));
    DeskPath grade = desk_path(DESK_WORDS("grade")), hired = desk_path(DESK_WORDS("hired"));

    DeskCompiled c = desk_compile_of(text, desk_table_room(table, sizeof table), DESK_RULES_VERSION_1);
    printf("compile: refusal %u, line %zu, column %zu, length %zu, policies %zu, bytes %zu\n", c.refusal, c.line, c.column, c.length, c.policies, c.bytes);
    if (c.refusal != 0) return refused(c.refusal);
    DeskTable compiled = desk_table(table, c.bytes); // the calls after it need no others
    printf("begins: %d\n", desk_begins_of(text, compiled));

    DeskBagWriter writer;
    if (desk_bag_begin(&writer, attributes, sizeof attributes) != DESK_WROTE || desk_bag_string(&writer, DESK_ROOT_PRINCIPAL, hired, DESK_WORDS("own")) != DESK_WROTE || desk_bag_number(&writer, DESK_ROOT_PRINCIPAL, grade, 3) != DESK_WROTE) return 1;
    DeskBag bag = desk_bag_written(&writer);

    DeskDecision d = desk_decide_of(text, compiled, bag, who, what, which);
    printf("decide: refusal %u, outcome %u, policy %zu, mark %" PRIu64 "\n", d.refusal, d.outcome, d.policy, d.mark);

    DeskValue v = desk_lookup_of(bag, DESK_ROOT_PRINCIPAL, grade);
    printf("principal.grade: refusal %u, kind %u, number %g, place %zu\n", v.refusal, v.kind, v.number, v.place);
    DeskString s = desk_string_of(bag, DESK_ROOT_PRINCIPAL, hired);
    printf("principal.hired: \"%.*s\"\n", (int)s.length, (const char *)bag.bytes + s.start);

    return print_sheet(text, compiled, who, what, which) || print_tally(text, compiled, c.policies, who, what, which) || print_permit() || print_versions(who, what, which);
}

// The stack that the desk's calls take, on texts of the deepest nesting. A call runs on a stack of its own that was painted before; what it wrote lies below its first frame. Built
// and run by bench/stack, on x86-64 or under the emulator. A figure above its limit, or an answer that is not right, ends it with status 1 and prints the text.
//
// Each text is tried under both versions of the rules: compiled once under each, and that table lent to the other calls. The texts are not chosen. A text is one policy. In its braces stands a chain, in that 31 levels, and inside these a leaf, which is a condition without parts. A chain puts what it
// holds to the left, in the middle or to the right of a `||`, of an `&&`, of both or of neither: 16. A level is `!`, one of the three places of an `if`, or brackets with one of
// the chains: 20. Tried are
//   every leaf, refused ones too, in every level, repeated to the full depth, and those that are not refused without levels;
//   every word of two levels, repeated so, around the leaves of each sort that took most, and every word of three around those that took most of all;
//   4,000 texts whose levels, chain and leaf are drawn by chance, the same in every run;
//   then, in the texts that took most, every other level at every place, every other chain in the braces and every other leaf, until nothing takes more;
//   a chain of 1,301 conditions, which is to take no more than the leaves without levels;
//   and the deepest of these texts with `like` and one to five stars, which are to take no more than with none.
#include "desk.h"
#include <stdio.h>
#include <stdlib.h>
#include <string.h>
#include <ucontext.h>

#define LENT(s) (const uint8_t *)(s), sizeof(s) - 1
#define COUNT(a) (sizeof(a) / sizeof *(a))
#define TEXT text, length, table, sizeof table
#define REQUEST LENT("person:a"), LENT("teach"), LENT("shaft:A")

// ---- texts

enum { PLACES = 4, CHAINS = PLACES * PLACES, OTHERS = 4, STEPS = OTHERS + CHAINS, LEVELS = 31, MOST_LEAVES = 2000 };

// Where a condition stands in a chain: alone, right, left, in the middle. What stands beside it lets the evaluator go on to it.
static const struct {
    const char *before, *after;
} either[PLACES] = {{"", ""}, {"false||", ""}, {"", "||false"}, {"false||", "||false"}}, both[PLACES] = {{"", ""}, {"true&&", ""}, {"", "&&true"}, {"true&&", "&&true"}};

// What a level puts before and behind the next one.
static struct step {
    char before[24], after[24];
} steps[STEPS] = {{"!", ""}, {"if ", " then true else true"}, {"if true then ", " else true"}, {"if false then true else ", ""}}, chains[CHAINS];

static struct leaf {
    char words[200];
    int sort;
    bool refused;
} leaves[MOST_LEAVES];
static int leaf_count;
enum { CONSTANT, COMPARISON, LIKE, IN_LIST, IN_ATTRIBUTE, CONTAINS, HAS, REFUSED, SORTS };

struct nesting {
    int chain, levels, level[LEVELS], leaf;
};

static uint8_t text[8192], table[65536]; // the table is that of the version tried last
static size_t length;

static void put(const char *s) {
    size_t n = strlen(s);
    if (length + n > sizeof text) abort();
    memcpy(text + length, s, n);
    length += n;
}

static void write_text(const struct nesting *n) {
    length = 0;
    put("permit(principal,action,resource)when{");
    put(chains[n->chain].before);
    for (int i = 0; i < n->levels; i++) put(steps[n->level[i]].before);
    put(leaves[n->leaf].words);
    for (int i = n->levels - 1; i >= 0; i--) put(steps[n->level[i]].after);
    put(chains[n->chain].after);
    put("};");
}

static void make_steps(void) {
    for (int c = 0; c < CHAINS; c++) {
        int e = c / PLACES, b = c % PLACES;
        snprintf(chains[c].before, sizeof chains[c].before, "%s%s", either[e].before, both[b].before);
        snprintf(chains[c].after, sizeof chains[c].after, "%s%s", both[b].after, either[e].after);
        snprintf(steps[OTHERS + c].before, sizeof steps[0].before, "(%.20s", chains[c].before);
        snprintf(steps[OTHERS + c].after, sizeof steps[0].after, "%.20s)", chains[c].after);
    }
}

static void leaf(int sort, const char *a, const char *b, const char *c) {
    if (leaf_count == MOST_LEAVES) abort();
    struct leaf *l = &leaves[leaf_count++];
    l->sort = sort;
    l->refused = sort == REFUSED;
    if (snprintf(l->words, sizeof l->words, "%s%s%s", a, b, c) >= (int)sizeof l->words) abort();
}

// Every operator, with operands of every kind on either side: literals, attributes of the base and of columns, absent ones, the action's name.
static void make_leaves(void) {
    static const char *const operands[] = {"\"abcde\"", "1", "-0.12345678901234", "true", "action.name", "principal.s", "principal.n", "principal.f", "principal.l", "principal.none", "resource.c", "env.d"};
    enum { LITERALS = 4, OPERANDS = COUNT(operands) };
    static const char *const comparators[] = {"==", "!=", ">", ">=", "<", "<="};
    static const char *const patterns[] = {"\"\"", "\"abcde\"", "\"*\"", "\"?????\"", "\"*a*b*c*d*e\"", "\"*?*?*\""};
    static const char *const lists[] = {"[\"abcde\"]", "[1,-0.12345678901234,true,\"abcde\"]", "[1,2,3,4,5,6,7,8,9,10,11,12,13,14,15,\"abcde\"]"};
    static const char *const had[] = {"action has name", "principal has s", "principal has none", "principal has none.at.all", "resource has c", "env has d"};
    static const char *const refused[] = {"#", ":", "\"", "\"abcde", "\"a\1\"", "aword-that-goes-on-for-more-bytes-than-a-word-may-have-0123456789", "1234567890123456", "principal.if==1", "principal has if", "action.kind==1",
        "action has kind", "principal.s", "principal", "1", "1==", "1 like 2", "1 like", "\"a\" like \"**\"", "\"a\" like \"[\"", "\"a\" like \"******\"", "1 in 1", "1 in []", "1 in [1,", "1 in [1,2,3,4,5,6,7,8,9,10,11,12,13,14,15,16,17]",
        "principal.l.containsAll", "principal.l.containsAny([", "principal.l.containsAny([1]", "principal.containsAll([1])", "principal.a.aword-that-goes-on-and-on-so-that-this-path-has-more-than-64-bytes==1", "(", "!", "if", "(true)", "!true",
        "if true then true else true", "true true", "", ";", "is"};
    leaf(CONSTANT, "true", "", "");
    leaf(CONSTANT, "false", "", "");
    for (size_t a = 0; a < OPERANDS; a++) {
        for (size_t b = 0; b < OPERANDS; b++)
            for (size_t c = 0; c < COUNT(comparators); c++) leaf(COMPARISON, operands[a], comparators[c], operands[b]);
        for (size_t p = 0; p < COUNT(patterns); p++) leaf(LIKE, operands[a], " like ", patterns[p]);
        for (size_t l = 0; l < COUNT(lists); l++) leaf(IN_LIST, operands[a], " in ", lists[l]);
        for (size_t b = LITERALS; b < OPERANDS; b++) leaf(IN_ATTRIBUTE, operands[a], " in ", operands[b]);
    }
    for (size_t a = LITERALS; a < OPERANDS; a++)
        for (size_t l = 0; l < COUNT(lists); l++)
            for (int any = 0; any < 2; any++) {
                char list[100];
                snprintf(list, sizeof list, "(%.90s)", lists[l]);
                leaf(CONTAINS, operands[a], any ? ".containsAny" : ".containsAll", list);
            }
    for (size_t h = 0; h < COUNT(had); h++) leaf(HAS, had[h], "", "");
    for (size_t r = 0; r < COUNT(refused); r++) leaf(REFUSED, refused[r], "", "");
}

// ---- calls

enum { STACK = 1 << 18 };
static const uint64_t PAINT = 0xA5A5A5A5A5A5A5A5;
static uint64_t stack[STACK / sizeof(uint64_t)] __attribute__((aligned(64)));
static ucontext_t here, there;
static volatile uint32_t refusal; // of the last call
static uint64_t version;          // under which the text is tried
static volatile bool wrong;       // an answer without a refusal that is not right

// A bag with a string, a number, a flag and a list; a question with the same base and two columns, resource.c (absent, "abcde") and env.d (absent, 1): four rows.
#define BASE "\4\1" "f" "\3\1\1" "l" "\4\2\1" "x" "\5" "abcde" "\1" "n" "\2\0\0\0\0\0\0\xF0\x3F\1" "s" "\1\5" "abcde"
static const char bag[] = BASE "\1\1" "c" "\1\5" "abcde" "\0";
static const char question[] = BASE "\0\0\2" "\2\1" "c" "\2\0\1\5" "abcde" "\3\1" "d" "\2\0\2\0\0\0\0\0\0\xF0\x3F";
static const char requests[] = "\10person:a\5teach\7shaft:A";
static uint8_t sheet[4 * DESK_ROW_BYTES];
static uint32_t counts[DESK_TALLY_COUNTS];

static void nothing(void) {}
static void compile(void) { refusal = desk_compile(TEXT, version).refusal; }
static void begins(void) { refusal = desk_begins(TEXT) ? 0 : 20; }
static void decide(void) { refusal = desk_decide(TEXT, LENT(bag), REQUEST).refusal; }
static void page(void) { refusal = desk_sheet(TEXT, LENT(question), REQUEST, 0, sheet, sizeof sheet, 0).refusal; }
static void tally(void) { refusal = desk_tally(TEXT, LENT(question), 1, LENT(requests), counts); }
static void lookup(void) { wrong |= desk_lookup(LENT(bag), 2, LENT("c")).kind != 1; }
static void string(void) { wrong |= desk_string(LENT(bag), 2, LENT("c")).length != 5; }
static void rows(void) { wrong |= desk_rows(LENT(question)) != 4; }

// Locks with every form of a test, of one test and of sixteen, and with what is refused, in each part that is lent; all of them are one call here, so that the most counts.
static void lock(void) {
    static const char words[] = "\1" "a\1" "a\1" "\1" "b\3" "b.b\2" "\1" "c\1" "c\3" "\2" "if\5" "level\3";
    static const char *const locks[] = {"a:x", "b:x-1_y", "c>3", "c >= -0.12345678901234", " c < 3 & if<=3\n", "a:x&b:y&c>1&if<2&a:x&b:y&c>1&if<2&a:x&b:y&c>1&if<2&a:x&b:y&c>1&if<2"};
    static const char *const refused[] = {"", "a", "a:", "c:3", "a>3", "d:x", "a:x&", "a:x y", "a\"x", "\"", "c>1234567890123456", "c>x", "c>\"x\"", "a:x&b:y&c>1&if<2&a:x&b:y&c>1&if<2&a:x&b:y&c>1&if<2&a:x&b:y&c>1&if<2&a:x"};
    static uint8_t room[1000];
    for (size_t i = 0; i < COUNT(locks); i++) wrong |= desk_lock(LENT(words), (const uint8_t *)locks[i], strlen(locks[i]), LENT("\5teach\0"), LENT("shaft:A"), room, sizeof room).refusal != 0;
    for (size_t i = 0; i < COUNT(refused); i++) wrong |= desk_lock(LENT(words), (const uint8_t *)refused[i], strlen(refused[i]), LENT("\5teach\0"), LENT("shaft:A"), room, sizeof room).refusal != DESK_REFUSED_LOCK;
    wrong |= desk_lock(LENT("\1" "a\2" "if\1"), LENT("a:x"), LENT("\1x"), LENT("y"), room, sizeof room).refusal != DESK_REFUSED_LOCK;
    wrong |= desk_lock(LENT("\1" "a\1" "a\1" "\1" "a\1" "a\1"), LENT("a:x"), LENT("\1x"), LENT("y"), room, sizeof room).refusal != DESK_REFUSED_LOCK;
    wrong |= desk_lock(LENT(words), LENT("a:x"), LENT("\2x"), LENT("y"), room, sizeof room).refusal != DESK_REFUSED_LOCK;
    wrong |= desk_lock(LENT(words), LENT("a:x"), LENT("\1x"), LENT("\n"), room, sizeof room).refusal != DESK_REFUSED_LOCK;
    wrong |= desk_lock(LENT(words), LENT("a:x"), LENT("\1x"), LENT("y"), room, 10).refusal != DESK_REFUSED_PERMIT_ROOM;
}

// The calls that are lent a text, and those that are not; the most that each may take, and the most that it took, on which text.
static struct call {
    const char *name;
    void (*call)(void);
    size_t limit, most;
    struct nesting deepest;
} calls[] = {{"compile", compile, 10500, 0, {0}}, {"begins", begins, 10500, 0, {0}}, {"decide", decide, 11000, 0, {0}}, {"tally", tally, 13500, 0, {0}}, {"sheet", page, 12000, 0, {0}}, {"lookup", lookup, 1000, 0, {0}}, {"string", string, 1000, 0, {0}}, {"rows", rows, 1000, 0, {0}}, {"lock", lock, 3000, 0, {0}}};
enum { WITH_TEXT = 5, CALLS = COUNT(calls), VERSIONS = DESK_RULES_VERSION_2 };
static size_t most_under[VERSIONS][WITH_TEXT]; // the most under each version
static size_t most_of_sort[WITH_TEXT][SORTS];   // the most with leaves of each sort, and with which leaf
static int leaf_of_sort[WITH_TEXT][SORTS];
static size_t most_of_row[STEPS + 2][WITH_TEXT]; // with each level repeated, without levels, and of the chain
enum { NO_LEVELS = STEPS, LONG_CHAIN = STEPS + 1 };
enum { MOST_STARS = 5 };
static size_t of_stars[MOST_STARS + 1][WITH_TEXT]; // the deepest nesting around `like`, by the stars of its pattern
static size_t round_a_call; // what a call of nothing takes
static long tried;

static void paint(size_t from) {
    for (size_t i = from; i < COUNT(stack); i++) stack[i] = PAINT;
}

// Bytes of the painted stack that a call wrote to, which is painted again.
static size_t touched(void (*call)(void)) {
    getcontext(&there);
    there.uc_stack.ss_sp = stack;
    there.uc_stack.ss_size = STACK;
    there.uc_link = &here;
    makecontext(&there, call, 0);
    swapcontext(&here, &there);
    // Nothing under the last 64 KB is looked at unless the lowest of these was written to.
    size_t low = COUNT(stack) - 8192;
    if (stack[low] != PAINT) low = 0;
    while (low + 8 <= COUNT(stack)) {
        const uint64_t *s = stack + low;
        if (((s[0] ^ PAINT) | (s[1] ^ PAINT) | (s[2] ^ PAINT) | (s[3] ^ PAINT) | (s[4] ^ PAINT) | (s[5] ^ PAINT) | (s[6] ^ PAINT) | (s[7] ^ PAINT)) != 0) break;
        low += 8;
    }
    while (low < COUNT(stack) && stack[low] == PAINT) low++;
    size_t byte = low * sizeof(uint64_t);
    while (byte < STACK && ((const uint8_t *)stack)[byte] == (uint8_t)PAINT) byte++;
    paint(low);
    return STACK - byte;
}

static void print_text(void) { fprintf(stderr, "version %u: %.*s\n", (unsigned)version, (int)length, (const char *)text); }

static size_t measured(const struct call *c) {
    size_t bytes = touched(c->call) - round_a_call;
    if (bytes > c->limit && bytes > c->most) {
        fprintf(stderr, "%s takes %zu bytes of stack, more than %zu, on this text:\n", c->name, bytes, c->limit);
        print_text();
    }
    return bytes;
}

// What the calls take on the text under one version.
static void measure_under(bool refused, size_t *took) {
    for (int i = 0; i < WITH_TEXT; i++) {
        took[i] = measured(&calls[i]);
        if (took[i] > most_under[version - 1][i]) most_under[version - 1][i] = took[i];
        if (refused != (refusal != 0) && !wrong) {
            fprintf(stderr, "%s answers refusal %u on this text:\n", calls[i].name, refusal);
            print_text();
            wrong = true;
        }
    }
}

// The most that the calls take on the text under either, with the most of a row.
static void measure_all(bool refused, size_t *took, size_t *most) {
    tried++;
    memset(took, 0, sizeof(size_t[WITH_TEXT]));
    for (version = 1; version <= VERSIONS; version++) {
        size_t under[WITH_TEXT];
        measure_under(refused, under);
        for (int i = 0; i < WITH_TEXT; i++)
            if (under[i] > took[i]) took[i] = under[i];
    }
    for (int i = 0; i < WITH_TEXT; i++)
        if (most != NULL && took[i] > most[i]) most[i] = took[i];
}

// Tries a text; whether some call took more than ever before.
static bool try(const struct nesting *n, size_t *most) {
    bool more = false;
    size_t took[WITH_TEXT];
    const struct leaf *l = &leaves[n->leaf];
    write_text(n);
    measure_all(l->refused, took, most);
    for (int i = 0; i < WITH_TEXT; i++) {
        if (took[i] > most_of_sort[i][l->sort]) most_of_sort[i][l->sort] = took[i], leaf_of_sort[i][l->sort] = n->leaf;
        if (took[i] > calls[i].most) calls[i].most = took[i], calls[i].deepest = *n, more = true;
    }
    return more;
}

// ---- the search

// A word of steps, repeated to the full depth; in the braces stands the chain of its first brackets.
static struct nesting repeated(const int *word, int steps_in_word, int leaf_number) {
    struct nesting n = {0, LEVELS, {0}, leaf_number};
    for (int i = 0; i < LEVELS; i++) n.level[i] = word[i % steps_in_word];
    for (int i = steps_in_word - 1; i >= 0; i--)
        if (word[i] >= OTHERS) n.chain = word[i] - OTHERS;
    return n;
}

static void try_words(int steps_in_word, int leaf_number) {
    int words = 1;
    for (int i = 0; i < steps_in_word; i++) words *= STEPS;
    for (int w = 0; w < words; w++) {
        int word[3], rest = w;
        for (int i = 0; i < steps_in_word; i++) word[i] = rest % STEPS, rest /= STEPS;
        struct nesting n = repeated(word, steps_in_word, leaf_number);
        try(&n, steps_in_word == 1 ? most_of_row[w] : NULL);
    }
}

// A number below `end`, by chance.
static int drawn(int end) {
    static uint64_t state = 2026;
    state = state * 6364136223846793005u + 1442695040888963407u;
    return (int)((state >> 33) % (uint64_t)end);
}

static void try_drawn(int texts) {
    for (; texts > 0; texts--) {
        struct nesting n = {drawn(CHAINS), LEVELS, {0}, drawn(leaf_count)};
        for (int i = 0; i < LEVELS; i++) n.level[i] = drawn(STEPS);
        try(&n, NULL);
    }
}

// The different ones of some leaves, each once.
static int different(int count, int *numbers) {
    int kept = 0;
    for (int i = 0; i < count; i++) {
        bool seen = false;
        for (int j = 0; j < kept; j++) seen |= numbers[j] == numbers[i];
        if (!seen) numbers[kept++] = numbers[i];
    }
    return kept;
}

// Every text that differs from this one in one place; whether some call took more.
static bool try_others(struct nesting n) {
    bool more = false;
    struct nesting m = n;
    for (int i = 0; i < LEVELS; i++, m = n)
        for (m.level[i] = 0; m.level[i] < STEPS; m.level[i]++) more |= try(&m, NULL);
    for (m.chain = 0; m.chain < CHAINS; m.chain++) more |= try(&m, NULL);
    m = n;
    for (m.leaf = 0; m.leaf < leaf_count; m.leaf++) more |= try(&m, NULL);
    return more;
}

static void try_long_chain(void) {
    size_t took[WITH_TEXT];
    length = 0;
    put("permit(principal,action,resource)when{");
    for (int i = 0; i < 1300; i++) put("true&&");
    put("true};");
    measure_all(false, took, most_of_row[LONG_CHAIN]);
    for (int i = 0; i < WITH_TEXT; i++)
        if (took[i] > most_of_row[NO_LEVELS][i]) {
            fprintf(stderr, "%s takes %zu bytes of stack on a chain of 1,301 conditions, more than on one\n", calls[i].name, took[i]);
            wrong = true;
        }
}

// The same nesting around `like`, with none to five stars.
static void try_stars(const struct nesting *n) {
    static const char *const patterns[MOST_STARS + 1] = {"abcde", "*abcde", "*a*bcde", "*a*b*cde", "*a*b*c*de", "*a*b*c*d*e"};
    for (int stars = 0; stars <= MOST_STARS; stars++) {
        struct nesting m = *n;
        m.leaf = leaf_count;
        leaf(LIKE, "\"abcde\" like \"", patterns[stars], "\"");
        leaf_count--;
        write_text(&m);
        measure_all(false, of_stars[stars], NULL);
        for (int i = 0; i < WITH_TEXT; i++)
            if (of_stars[stars][i] > of_stars[0][i]) {
                fprintf(stderr, "%s takes %zu bytes of stack with %d stars, and %zu with none\n", calls[i].name, of_stars[stars][i], stars, of_stars[0][i]);
                wrong = true;
            }
    }
}

static void search(void) {
    for (int l = 0; l < leaf_count; l++) {
        struct nesting flat = {0, 0, {0}, l};
        if (!leaves[l].refused) try(&flat, most_of_row[NO_LEVELS]);
        try_words(1, l);
    }
    try_long_chain();
    int some[WITH_TEXT * SORTS], deepest[WITH_TEXT];
    memcpy(some, leaf_of_sort, sizeof some);
    for (int i = 0; i < WITH_TEXT; i++) deepest[i] = calls[i].deepest.leaf;
    for (int i = 0, count = different(COUNT(some), some); i < count; i++) try_words(2, some[i]);
    for (int i = 0, count = different(WITH_TEXT, deepest); i < count; i++) try_words(3, deepest[i]);
    try_drawn(4000);
    for (int i = 0; i < WITH_TEXT; i++)
        while (try_others(calls[i].deepest)) {}
    try_stars(&calls[WITH_TEXT - 1].deepest);
}

// ---- what is printed

// Between backticks; in a table's cell a bar wants a backslash.
static void print_code(const char *words, bool in_cell) {
    printf("`");
    for (; *words; words++) printf(in_cell && *words == '|' ? "\\%c" : "%c", *words);
    printf("`");
}

static void print_round(const struct step *s, bool in_cell) {
    print_code(s->before, in_cell);
    if (*s->after) printf(" .. "), print_code(s->after, in_cell);
}

static void print_deepest(const struct call *c) {
    const struct nesting *n = &c->deepest;
    printf("- %s:", c->name);
    if (n->chain != 0) printf(" "), print_round(&chains[n->chain], false), printf(",");
    for (int i = 0, times; i < n->levels; i += times) {
        for (times = 1; i + times < n->levels && n->level[i + times] == n->level[i]; times++) {}
        printf(" %d times ", times);
        print_round(&steps[n->level[i]], false);
        printf(",");
    }
    printf(" ");
    print_code(leaves[n->leaf].words, false);
    printf("\n");
}

static void print_head(const char *what, int count) {
    printf("\n| %s |", what);
    for (int i = 0; i < count; i++) printf(" %s |", calls[i].name);
    printf("\n|---|");
    for (int i = 0; i < count; i++) printf("---:|");
    printf("\n");
}

static void print_row(const size_t *row) {
    printf(" |");
    for (int i = 0; i < WITH_TEXT; i++) printf(" %zu |", row[i]);
    printf("\n");
}

static void print_all(void) {
    printf("The deepest of %ld texts, each under both versions, for each call:\n\n", tried);
    for (int i = 0; i < WITH_TEXT; i++) print_deepest(&calls[i]);
    print_head("bytes of stack, the most with any leaf", WITH_TEXT);
    printf("| no level"), print_row(most_of_row[NO_LEVELS]);
    printf("| a chain of 1,301 conditions"), print_row(most_of_row[LONG_CHAIN]);
    for (int i = 0; i < STEPS; i++) printf("| 31 times "), print_round(&steps[i], true), print_row(most_of_row[i]);
    for (int stars = 0; stars <= MOST_STARS; stars += MOST_STARS) printf("| the sheet's deepest nesting around `like` with %s", stars == 0 ? "no star" : "five stars"), print_row(of_stars[stars]);
    print_head("most bytes of stack", CALLS);
    for (int v = 0; v < VERSIONS; v++) {
        printf("| measured, version %d |", v + 1);
        for (int i = 0; i < CALLS; i++) printf(" %zu |", i < WITH_TEXT ? most_under[v][i] : calls[i].most);
        printf("\n");
    }
    printf("| allowed |");
    for (int i = 0; i < CALLS; i++) printf(" %zu |", calls[i].limit);
    printf("\n");
}

int main(void) {
    make_steps();
    make_leaves();
    paint(0);
    round_a_call = touched(nothing);
    search();
    for (int i = WITH_TEXT; i < CALLS; i++) calls[i].most = measured(&calls[i]);
    print_all();
    for (int i = 0; i < CALLS; i++) wrong |= calls[i].most > calls[i].limit;
    return wrong;
}

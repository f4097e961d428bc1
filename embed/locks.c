// Holds the examples of docs/LOCKS.md to the proved desk. Standard input has a line for each, its parts divided by tabs, as docs/locks.sh takes them from the page. Prints how many
// there were; one that is answered otherwise is printed and ends it with status 1. Each permit that is written must compile, as one policy, under each version.
#include "desk_more.h"
#include <stdio.h>
#include <stdlib.h>
#include <string.h>

enum { LONGEST = 1 << 16, PARTS = 3, ROOM = 1 << 14 };

// What a lock is asked with: the bytes that are lent, which may be of another form.
struct asked {
    uint8_t words[ROOM], actions[ROOM];
    size_t words_length, actions_length;
    char resource[300];
};
static struct asked page; // the page's
static uint8_t room[DESK_MOST_PERMIT], table[DESK_TABLE_FOR_A_BYTE * DESK_MOST_PERMIT];
static int asked, failed;

static void check(bool holds, const char *line) {
    asked++;
    if (holds) return;
    failed++;
    printf("FAILED: %.300s\n", line);
}

// ---- what is lent

static void counted(uint8_t *bytes, size_t *length, const char *s, size_t n) {
    bytes[(*length)++] = (uint8_t)n;
    memcpy(bytes + *length, s, n);
    *length += n;
}

static bool add_word(struct asked *a, const char *line) {
    const char *equals = strstr(line, " = principal."), *comma = equals == NULL ? NULL : strstr(equals, ", ");
    if (comma == NULL) return false;
    const char *path = equals + strlen(" = principal.");
    counted(a->words, &a->words_length, line + 5, (size_t)(equals - line - 5));
    counted(a->words, &a->words_length, path, (size_t)(comma - path));
    a->words[a->words_length++] = comma[2] == 'e' ? DESK_SORT_EQUALITY : comma[2] == 'm' ? DESK_SORT_MEMBERSHIP : DESK_SORT_NUMBER;
    return true;
}

// The string behind a quote, where a quote that follows a backslash is part of it, and \xFC is a byte; gives what stands behind it.
static const char *string(const char *at, char *s, size_t *n) {
    for (*n = 0, at++; *at != '"' && *at != 0; at++) {
        char byte[3] = {0};
        if (*at == '\\') at++;
        if (at[0] == 'x' && at[-1] == '\\') {
            memcpy(byte, at + 1, 2);
            at += 2;
        }
        s[(*n)++] = byte[0] != 0 ? (char)strtoul(byte, NULL, 16) : *at;
    }
    s[*n] = 0;
    return at + 1;
}

static bool add_line(struct asked *a, const char *line) {
    static char s[LONGEST];
    size_t n;
    if (strncmp(line, "word ", 5) == 0) return add_word(a, line);
    if (strncmp(line, "resource = \"", 12) == 0) return string(line + 11, a->resource, &n) != NULL;
    if (strncmp(line, "actions = \"", 11) == 0) {
        a->actions_length = 0;
        for (const char *at = line + 10; at != NULL; at = *at == ',' ? strchr(at, '"') : NULL) at = string(at, s, &n), counted(a->actions, &a->actions_length, s, n);
        return true;
    }
    size_t many = strtoul(line + strcspn(line, "0123456789"), NULL, 10);
    if (strncmp(line, "actions ", 8) == 0) {
        for (a->actions_length = 0; many > 0; many--) counted(a->actions, &a->actions_length, "a", 1);
        return true;
    }
    if (strncmp(line, "words ", 6) != 0) return false;
    for (many -= 3; many > 0; many--) {
        char word[] = {'w', (char)('a' + many)};
        counted(a->words, &a->words_length, word, 2);
        counted(a->words, &a->words_length, "a", 1);
        a->words[a->words_length++] = DESK_SORT_NUMBER;
    }
    return true;
}

static DeskLock locked(const struct asked *a, const char *lock) {
    memset(room, '#', sizeof room);
    return desk_lock_of(desk_vocabulary(a->words, a->words_length), desk_lock_text(lock, strlen(lock)), desk_actions(a->actions, a->actions_length), desk_resource(a->resource, strlen(a->resource)), desk_room(room, sizeof room));
}

static bool compiles(size_t length) {
    bool all = true;
    for (uint64_t version = DESK_RULES_VERSION_1; version <= DESK_RULES_VERSION_2; version++) {
        DeskCompiled c = desk_compile(room, length, table, sizeof table, version);
        all = all && c.refusal == 0 && c.policies == 1;
    }
    return all;
}

// ---- lines

// Whether an example, which is a lock or a line beside the page's, is refused or not, and then compiles.
static bool answered(const char *example, uint32_t refusal) {
    static struct asked own;
    own = page;
    bool is_line = strncmp(example, "word", 4) == 0 || strncmp(example, "actions", 7) == 0 || strncmp(example, "resource", 8) == 0;
    if (is_line && !add_line(&own, example)) return false;
    DeskLock l = locked(&own, is_line ? "firm:own" : example);
    return l.refusal == refusal && (refusal != 0 ? l.length == 0 && room[0] == '#' : compiles(l.length));
}

static bool is_permit(const char *lock, const char *before, const char *condition, const char *behind) {
    static char permit[LONGEST];
    DeskLock l = locked(&page, lock);
    int n = snprintf(permit, sizeof permit, "%s%s%s", before, condition, behind);
    return l.refusal == 0 && l.length == (size_t)n && memcmp(room, permit, l.length) == 0 && compiles(l.length);
}

static bool same_bytes(const char *hex, const uint8_t *bytes, size_t length) {
    char *end;
    size_t at = 0;
    for (; at < length; at++, hex = end)
        if (strtoul(hex, &end, 16) != bytes[at] || end == hex) return false;
    return *hex == 0;
}

static bool holds(char **part, int parts) {
    const char *what = part[0];
    if (parts == 2 && strcmp(what, "line") == 0) return add_line(&page, part[1]);
    if (parts == 3 && strcmp(what, "permit") == 0) return is_permit(part[1], "permit(principal, action in [\"teach\", \"read\"], resource == \"shaft:A\") when { ", part[2], " };");
    if (parts == 2 && strcmp(what, "spelled") == 0) return is_permit("firm:own & flag:taught & grade>=3", part[1], "", "");
    if (parts == 2 && strcmp(what, "refused") == 0) return answered(part[1], DESK_REFUSED_LOCK);
    if (parts == 2 && strcmp(what, "accepted") == 0) return answered(part[1], 0);
    if (parts == 2 && strcmp(what, "vocabulary") == 0) return same_bytes(part[1], page.words, page.words_length);
    if (parts == 2 && strcmp(what, "actions") == 0) return same_bytes(part[1], page.actions, page.actions_length);
    return false;
}

int main(void) {
    static char line[LONGEST], copy[LONGEST];
    while (fgets(line, sizeof line, stdin) != NULL) {
        char *part[PARTS + 1];
        int parts = 0;
        line[strcspn(line, "\n")] = 0;
        memcpy(copy, line, sizeof copy);
        for (char *at = line; at != NULL && parts <= PARTS;) {
            part[parts++] = at;
            at = strchr(at, '\t');
            if (at != NULL) *at++ = 0;
        }
        check(parts >= 2 && parts <= PARTS && holds(part, parts), copy);
    }
    printf("%d examples of docs/LOCKS.md, %d failed\n", asked, failed);
    return failed != 0 || asked < 50;
}

/* The desk for C: made by embed/header. docs/EMBEDDING.md says what each answer means and which sizes to reserve.
   A slice is two arguments: where it starts and how many bytes it has; an array is where it starts. No proof reaches a caller in C. It owes: each pointer leads to so many bytes or
   numbers, which stay until the call returns (with 0 bytes any pointer will do, NULL too); what is lent without const overlaps nothing else that is lent to the same call. */
#ifndef DESK_H
#define DESK_H
#include <stdbool.h>
#include <stddef.h>
#include <stdint.h>
#ifdef __cplusplus
#define DESK_LAID_OUT static_assert
extern "C" {
#else
#define DESK_LAID_OUT _Static_assert
#endif

#define DESK_VERSION "5.0"
#define DESK_VERSION_MAJOR 5
#define DESK_VERSION_MINOR 0

/* Outcomes of a decision and of a listed row. Yes is ALLOWED or SYSTEM. */
#define DESK_ALLOWED 1u
#define DESK_FORBIDDEN 2u
#define DESK_NOTHING_SATISFIED 3u
#define DESK_SYSTEM 4u

/* Versions of the rules, not of this file. Compiling is told one by its number; the table records it, and later calls read it there, so to change it compile again. A table of version 1 is byte for byte what it was before there were versions. A text without policies has no version. */
#define DESK_RULES_VERSION_1 1u
#define DESK_RULES_VERSION_2 2u

/* Root bytes. */
#define DESK_ROOT_PRINCIPAL 1u
#define DESK_ROOT_RESOURCE 2u
#define DESK_ROOT_ENV 3u

/* Kinds of values. */
#define DESK_KIND_ABSENT 0u
#define DESK_KIND_STRING 1u
#define DESK_KIND_NUMBER 2u
#define DESK_KIND_FLAG 3u
#define DESK_KIND_LIST 4u

/* Refusals: of compiling, */
#define DESK_REFUSED_LONG_TEXT 1u
#define DESK_REFUSED_SMALL_TABLE 2u
#define DESK_REFUSED_BYTE 3u
#define DESK_REFUSED_COLON 4u
#define DESK_REFUSED_UNENDED_STRING 5u
#define DESK_REFUSED_LONG_TOKEN 6u
#define DESK_REFUSED_RESERVED_WORD 7u
#define DESK_REFUSED_BARE_ATTRIBUTE 8u
#define DESK_REFUSED_TYPE 9u
#define DESK_REFUSED_NOT_ADMITTED 10u
#define DESK_REFUSED_ACTION_PATH 11u
#define DESK_REFUSED_DEPTH 12u
#define DESK_REFUSED_PATTERN 13u
#define DESK_REFUSED_MANY_LITERALS 14u
#define DESK_REFUSED_MANY_POLICIES 15u
#define DESK_REFUSED_LONG_PATH 16u
#define DESK_REFUSED_NOT_UTF8 17u
#define DESK_REFUSED_VERSION 30u

/* of the other calls. */
#define DESK_REFUSED_OTHER_TABLE 20u
#define DESK_REFUSED_SUBJECT 21u
#define DESK_REFUSED_ACTION 22u
#define DESK_REFUSED_RESOURCE 23u
#define DESK_REFUSED_BAG 24u
#define DESK_REFUSED_SHEET_ROOM 25u
#define DESK_REFUSED_START 26u
#define DESK_REFUSED_REQUESTS 27u

/* Sizes: a text and its table, */
#define DESK_MOST_TEXT 8192u
#define DESK_TABLE_FOR_A_BYTE 8u
#define DESK_MOST_POLICIES 64u
#define DESK_MOST_WORD 64u
#define DESK_MOST_TEXT_STRING 127u
#define DESK_MOST_DIGITS 15u
#define DESK_MOST_PATH 64u
#define DESK_MOST_LITERALS 16u
#define DESK_MOST_PATTERN 100u
#define DESK_MOST_WILDCARDS 5u
#define DESK_MOST_LEVELS 32u

/* a bag and a question, */
#define DESK_MOST_BAG 4096u
#define DESK_MOST_ENTRIES 32u
#define DESK_MOST_STRING 127u
#define DESK_MOST_STRINGS 16u
#define DESK_MOST_COLUMNS 6u
#define DESK_MOST_CANDIDATES 8u

/* a request and a listed row. */
#define DESK_MOST_REQUEST_PART 100u
#define DESK_ROW_BYTES 14u

/* A tally: its requests; the counts of a group, those of the outcomes first; the number of the group that has the sums; all its counts. */
#define DESK_MOST_REQUESTS 8u
#define DESK_TALLY_OUTCOMES 4u
#define DESK_TALLY_GROUP 68u
#define DESK_TALLY_SUMS 8u
#define DESK_TALLY_COUNTS 612u

/* Refusals of a lock. */
#define DESK_REFUSED_LOCK 28u
#define DESK_REFUSED_PERMIT_ROOM 29u

/* A lock: the words of its vocabulary, its tests; the longest permit. */
#define DESK_MOST_LOCK_WORDS 16u
#define DESK_MOST_TESTS 16u
#define DESK_MOST_PERMIT 5651u

/* Sorts of a vocabulary's words. */
#define DESK_SORT_EQUALITY 1u
#define DESK_SORT_MEMBERSHIP 2u
#define DESK_SORT_NUMBER 3u

/* What compiling answers: the refusal with its line and column and how many bytes its token has, or the policies and the bytes of the table that they use. */
typedef struct {
    uint32_t refusal;
    size_t line;
    size_t column;
    size_t length;
    size_t policies;
    size_t bytes;
} DeskCompiled;
DESK_LAID_OUT(sizeof(DeskCompiled) == 48 && offsetof(DeskCompiled, refusal) == 0 && offsetof(DeskCompiled, line) == 8 && offsetof(DeskCompiled, column) == 16 && offsetof(DeskCompiled, length) == 24 && offsetof(DeskCompiled, policies) == 32 && offsetof(DeskCompiled, bytes) == 40, "DeskCompiled");

/* What deciding answers: outcome 1 allowed, 2 forbidden, 3 nothing satisfied, 4 system; the policy that decided, 0 where none did; and the mark, of which bit n - 1 is set exactly when policy n is satisfied, 0 for the system. */
typedef struct {
    uint32_t refusal;
    uint32_t outcome;
    size_t policy;
    uint64_t mark;
} DeskDecision;
DESK_LAID_OUT(sizeof(DeskDecision) == 24 && offsetof(DeskDecision, refusal) == 0 && offsetof(DeskDecision, outcome) == 4 && offsetof(DeskDecision, policy) == 8 && offsetof(DeskDecision, mark) == 16, "DeskDecision");

/* An attribute: kind 0 absent, 1 string, 2 number, 3 flag, 4 list of strings; its number; the place of the byte after its kind byte. */
typedef struct {
    uint32_t refusal;
    uint32_t kind;
    double number;
    size_t place;
} DeskValue;
DESK_LAID_OUT(sizeof(DeskValue) == 24 && offsetof(DeskValue, refusal) == 0 && offsetof(DeskValue, kind) == 4 && offsetof(DeskValue, number) == 8 && offsetof(DeskValue, place) == 16, "DeskValue");

/* Where a string's bytes lie in the bag, and how many they are; 0 and 0 for anything else. */
typedef struct {
    size_t start;
    size_t length;
} DeskString;
DESK_LAID_OUT(sizeof(DeskString) == 16 && offsetof(DeskString, start) == 0 && offsetof(DeskString, length) == 8, "DeskString");

/* A page of the sheet: the rows written, and the row to go on with. */
typedef struct {
    uint32_t refusal;
    size_t written;
    size_t next;
} DeskPage;
DESK_LAID_OUT(sizeof(DeskPage) == 24 && offsetof(DeskPage, refusal) == 0 && offsetof(DeskPage, written) == 8 && offsetof(DeskPage, next) == 16, "DeskPage");

/* Compiles a text into the table, which records the version: 1 or 2. The bytes past those used stay, and a refusal changes nothing. */
DeskCompiled desk_compile(const uint8_t *text, size_t text_length, uint8_t *table, size_t table_length, uint64_t version);

/* Whether a text compiles and the table begins with its compiled bytes. */
bool desk_begins(const uint8_t *text, size_t text_length, const uint8_t *table, size_t table_length);

/* Decides a request over a bag, by the policies of a text whose table is lent. */
DeskDecision desk_decide(const uint8_t *text, size_t text_length, const uint8_t *table, size_t table_length, const uint8_t *bag, size_t bag_length, const uint8_t *subject, size_t subject_length, const uint8_t *action, size_t action_length, const uint8_t *resource, size_t resource_length);

/* An attribute's kind, number and place. Root byte 1 is principal, 2 resource, 3 env. */
DeskValue desk_lookup(const uint8_t *bag, size_t bag_length, uint8_t root, const uint8_t *path, size_t path_length);

/* Where the bytes of a string attribute lie, for callers that cannot take a part of the bag. */
DeskString desk_string(const uint8_t *bag, size_t bag_length, uint8_t root, const uint8_t *path, size_t path_length);

/* A page of the sheet from a start row on, written into the part of the lent sheet from byte `at` on. All other bytes stay, and a refusal changes nothing. */
DeskPage desk_sheet(const uint8_t *text, size_t text_length, const uint8_t *table, size_t table_length, const uint8_t *question, size_t question_length, const uint8_t *subject, size_t subject_length, const uint8_t *action, size_t action_length, const uint8_t *resource, size_t resource_length, size_t start, uint8_t *sheet, size_t sheet_length, size_t at);

/* How many rows a question has, and 0 where the bytes are none. */
size_t desk_rows(const uint8_t *question, size_t question_length);

/* The tally of so many requests over one question. `requests` has subject, action and resource of each, each behind a length byte. `counts` has nine groups of 68 numbers, one for each of eight requests and the sums: the rows of outcome 1 to 4, then those that policy 1 to 64 decides. Answers the refusal's number, 0 where nothing is refused; a refusal changes nothing. */
uint32_t desk_tally(const uint8_t *text, size_t text_length, const uint8_t *table, size_t table_length, const uint8_t *question, size_t question_length, size_t many, const uint8_t *requests, size_t requests_length, uint32_t counts[612]);

/* What writing a lock's permit answers: the permit's length. */
typedef struct {
    uint32_t refusal;
    size_t length;
} DeskLock;
DESK_LAID_OUT(sizeof(DeskLock) == 16 && offsetof(DeskLock, refusal) == 0 && offsetof(DeskLock, length) == 8, "DeskLock");

/* Writes the permit that a lock says over the start of the room. The bytes past it stay, and a refusal changes nothing. */
DeskLock desk_lock(const uint8_t *vocabulary, size_t vocabulary_length, const uint8_t *lock, size_t lock_length, const uint8_t *actions, size_t actions_length, const uint8_t *resource, size_t resource_length, uint8_t *room, size_t room_length);

#undef DESK_LAID_OUT
#ifdef __cplusplus
}
#endif
#endif

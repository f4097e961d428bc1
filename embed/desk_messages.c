/* A sentence for each refusal, as docs/RULES.md has it: made by embed/header. Optional; desk_more.h declares it. */
#include "desk_more.h"

const char *desk_message(uint32_t refusal) {
    switch (refusal) {
    case 0: return "Not refused.";
    case DESK_REFUSED_LONG_TEXT: return "The rule text has more than 8,192 bytes.";
    case DESK_REFUSED_SMALL_TABLE: return "The table has fewer than 8 bytes for each byte of the rule text.";
    case DESK_REFUSED_BYTE: return "A byte stands here with which nothing begins, or which no string may have.";
    case DESK_REFUSED_COLON: return "A colon stands outside a string.";
    case DESK_REFUSED_UNENDED_STRING: return "A string has no closing quote.";
    case DESK_REFUSED_LONG_TOKEN: return "A word, a string or a number is too long: at most 64 bytes, 127 bytes, 15 digits.";
    case DESK_REFUSED_RESERVED_WORD: return "A reserved word stands where a name of an attribute must.";
    case DESK_REFUSED_BARE_ATTRIBUTE: return "An attribute stands alone; it must be compared with something.";
    case DESK_REFUSED_TYPE: return "The name after 'is' is no type of this part.";
    case DESK_REFUSED_NOT_ADMITTED: return "Something else must stand here, or the text ends inside a policy.";
    case DESK_REFUSED_ACTION_PATH: return "The action has one attribute only, action.name.";
    case DESK_REFUSED_DEPTH: return "Conditions nest deeper than 32 levels.";
    case DESK_REFUSED_PATTERN: return "The pattern has more than 100 characters, more than 5 wildcards, or a square bracket, a brace or two stars in turn.";
    case DESK_REFUSED_MANY_LITERALS: return "The list has more than 16 literals.";
    case DESK_REFUSED_MANY_POLICIES: return "The text has more than 64 policies.";
    case DESK_REFUSED_LONG_PATH: return "The path of the attribute has more than 64 bytes.";
    case DESK_REFUSED_NOT_UTF8: return "The string is not UTF-8; save the rules as UTF-8, and write the string again.";
    case DESK_REFUSED_VERSION: return "There is no such version of the rules: there are 1 and 2, and one of them must be named.";
    case DESK_REFUSED_OTHER_TABLE: return "The table is not the one that this rule text compiles to, or the text is refused.";
    case DESK_REFUSED_SUBJECT: return "The subject is not system, and not person: or tool: and an id, or has more than 100 bytes.";
    case DESK_REFUSED_ACTION: return "The action is empty or has more than 100 bytes.";
    case DESK_REFUSED_RESOURCE: return "The resource is not controller:, shaft:, parameter: or record: and an id, or has more than 100 bytes.";
    case DESK_REFUSED_BAG: return "The bytes are no bag, or no question.";
    case DESK_REFUSED_SHEET_ROOM: return "The sheet has fewer than 14 bytes from the named byte on.";
    case DESK_REFUSED_START: return "The start row is above the number of rows.";
    case DESK_REFUSED_REQUESTS: return "A tally takes one to eight requests: lend at least one, and ask for those past the eighth in another call.";
    case DESK_REFUSED_LOCK: return "The lock, its vocabulary, its actions or its resource is not of the form that locks have.";
    case DESK_REFUSED_PERMIT_ROOM: return "The permit of this lock is longer than its room.";
    default: return "No refusal of the desk has this number.";
    }
}

//! The desk for Rust: made by embed/header. docs/EMBEDDING.md says what each answer means and which sizes to reserve. The functions over slices are safe: what they
//! lend is as the desk asks for it. Link with libdesk.a.
#![allow(dead_code)]

pub const VERSION: &str = "5.0";

// Outcomes of a decision and of a listed row. Yes is ALLOWED or SYSTEM.
pub const ALLOWED: u32 = 1;
pub const FORBIDDEN: u32 = 2;
pub const NOTHING_SATISFIED: u32 = 3;
pub const SYSTEM: u32 = 4;

// Versions of the rules, not of this file. Compiling is told one by its number; the table records it, and later calls read it there, so to change it compile again. A table of version 1 is byte for byte what it was before there were versions. A text without policies has no version.
pub const RULES_VERSION_1: u64 = 1;
pub const RULES_VERSION_2: u64 = 2;

// Root bytes.
pub const ROOT_PRINCIPAL: u8 = 1;
pub const ROOT_RESOURCE: u8 = 2;
pub const ROOT_ENV: u8 = 3;

// Kinds of values.
pub const KIND_ABSENT: u32 = 0;
pub const KIND_STRING: u32 = 1;
pub const KIND_NUMBER: u32 = 2;
pub const KIND_FLAG: u32 = 3;
pub const KIND_LIST: u32 = 4;

// Refusals: of compiling,
pub const REFUSED_LONG_TEXT: u32 = 1;
pub const REFUSED_SMALL_TABLE: u32 = 2;
pub const REFUSED_BYTE: u32 = 3;
pub const REFUSED_COLON: u32 = 4;
pub const REFUSED_UNENDED_STRING: u32 = 5;
pub const REFUSED_LONG_TOKEN: u32 = 6;
pub const REFUSED_RESERVED_WORD: u32 = 7;
pub const REFUSED_BARE_ATTRIBUTE: u32 = 8;
pub const REFUSED_TYPE: u32 = 9;
pub const REFUSED_NOT_ADMITTED: u32 = 10;
pub const REFUSED_ACTION_PATH: u32 = 11;
pub const REFUSED_DEPTH: u32 = 12;
pub const REFUSED_PATTERN: u32 = 13;
pub const REFUSED_MANY_LITERALS: u32 = 14;
pub const REFUSED_MANY_POLICIES: u32 = 15;
pub const REFUSED_LONG_PATH: u32 = 16;
pub const REFUSED_NOT_UTF8: u32 = 17;
pub const REFUSED_VERSION: u32 = 30;

// of the other calls.
pub const REFUSED_OTHER_TABLE: u32 = 20;
pub const REFUSED_SUBJECT: u32 = 21;
pub const REFUSED_ACTION: u32 = 22;
pub const REFUSED_RESOURCE: u32 = 23;
pub const REFUSED_BAG: u32 = 24;
pub const REFUSED_SHEET_ROOM: u32 = 25;
pub const REFUSED_START: u32 = 26;
pub const REFUSED_REQUESTS: u32 = 27;

// Sizes: a text and its table,
pub const MOST_TEXT: usize = 8192;
pub const TABLE_FOR_A_BYTE: usize = 8;
pub const MOST_POLICIES: usize = 64;
pub const MOST_WORD: usize = 64;
pub const MOST_TEXT_STRING: usize = 127;
pub const MOST_DIGITS: usize = 15;
pub const MOST_PATH: usize = 64;
pub const MOST_LITERALS: usize = 16;
pub const MOST_PATTERN: usize = 100;
pub const MOST_WILDCARDS: usize = 5;
pub const MOST_LEVELS: usize = 32;

// a bag and a question,
pub const MOST_BAG: usize = 4096;
pub const MOST_ENTRIES: usize = 32;
pub const MOST_STRING: usize = 127;
pub const MOST_STRINGS: usize = 16;
pub const MOST_COLUMNS: usize = 6;
pub const MOST_CANDIDATES: usize = 8;

// a request and a listed row.
pub const MOST_REQUEST_PART: usize = 100;
pub const ROW_BYTES: usize = 14;

// A tally: its requests; the counts of a group, those of the outcomes first; the number of the group that has the sums; all its counts.
pub const MOST_REQUESTS: usize = 8;
pub const TALLY_OUTCOMES: usize = 4;
pub const TALLY_GROUP: usize = 68;
pub const TALLY_SUMS: usize = 8;
pub const TALLY_COUNTS: usize = 612;

// Refusals of a lock.
pub const REFUSED_LOCK: u32 = 28;
pub const REFUSED_PERMIT_ROOM: u32 = 29;

// A lock: the words of its vocabulary, its tests; the longest permit.
pub const MOST_LOCK_WORDS: usize = 16;
pub const MOST_TESTS: usize = 16;
pub const MOST_PERMIT: usize = 5651;

// Sorts of a vocabulary's words.
pub const SORT_EQUALITY: u8 = 1;
pub const SORT_MEMBERSHIP: u8 = 2;
pub const SORT_NUMBER: u8 = 3;

/// What compiling answers: the refusal with its line and column and how many bytes its token has, or the policies and the bytes of the table that they use.
#[repr(C)]
#[derive(Clone, Copy, Debug, PartialEq)]
pub struct DeskCompiled {
    pub refusal: u32,
    pub line: usize,
    pub column: usize,
    pub length: usize,
    pub policies: usize,
    pub bytes: usize,
}

/// What deciding answers: outcome 1 allowed, 2 forbidden, 3 nothing satisfied, 4 system; the policy that decided, 0 where none did; and the mark, of which bit n - 1 is set exactly when policy n is satisfied, 0 for the system.
#[repr(C)]
#[derive(Clone, Copy, Debug, PartialEq)]
pub struct DeskDecision {
    pub refusal: u32,
    pub outcome: u32,
    pub policy: usize,
    pub mark: u64,
}

/// An attribute: kind 0 absent, 1 string, 2 number, 3 flag, 4 list of strings; its number; the place of the byte after its kind byte.
#[repr(C)]
#[derive(Clone, Copy, Debug, PartialEq)]
pub struct DeskValue {
    pub refusal: u32,
    pub kind: u32,
    pub number: f64,
    pub place: usize,
}

/// Where a string's bytes lie in the bag, and how many they are; 0 and 0 for anything else.
#[repr(C)]
#[derive(Clone, Copy, Debug, PartialEq)]
pub struct DeskString {
    pub start: usize,
    pub length: usize,
}

/// A page of the sheet: the rows written, and the row to go on with.
#[repr(C)]
#[derive(Clone, Copy, Debug, PartialEq)]
pub struct DeskPage {
    pub refusal: u32,
    pub written: usize,
    pub next: usize,
}

/// What writing a lock's permit answers: the permit's length.
#[repr(C)]
#[derive(Clone, Copy, Debug, PartialEq)]
pub struct DeskLock {
    pub refusal: u32,
    pub length: usize,
}

extern "C" {
    fn desk_compile(text: *const u8, text_length: usize, table: *mut u8, table_length: usize, version: u64) -> DeskCompiled;
    fn desk_begins(text: *const u8, text_length: usize, table: *const u8, table_length: usize) -> bool;
    fn desk_decide(text: *const u8, text_length: usize, table: *const u8, table_length: usize, bag: *const u8, bag_length: usize, subject: *const u8, subject_length: usize, action: *const u8, action_length: usize, resource: *const u8, resource_length: usize) -> DeskDecision;
    fn desk_lookup(bag: *const u8, bag_length: usize, root: u8, path: *const u8, path_length: usize) -> DeskValue;
    fn desk_string(bag: *const u8, bag_length: usize, root: u8, path: *const u8, path_length: usize) -> DeskString;
    fn desk_sheet(text: *const u8, text_length: usize, table: *const u8, table_length: usize, question: *const u8, question_length: usize, subject: *const u8, subject_length: usize, action: *const u8, action_length: usize, resource: *const u8, resource_length: usize, start: usize, sheet: *mut u8, sheet_length: usize, at: usize) -> DeskPage;
    fn desk_rows(question: *const u8, question_length: usize) -> usize;
    fn desk_tally(text: *const u8, text_length: usize, table: *const u8, table_length: usize, question: *const u8, question_length: usize, many: usize, requests: *const u8, requests_length: usize, counts: *mut u32) -> u32;
    fn desk_lock(vocabulary: *const u8, vocabulary_length: usize, lock: *const u8, lock_length: usize, actions: *const u8, actions_length: usize, resource: *const u8, resource_length: usize, room: *mut u8, room_length: usize) -> DeskLock;
}

/// Compiles a text into the table, which records the version: 1 or 2. The bytes past those used stay, and a refusal changes nothing.
pub fn compile(text: &[u8], table: &mut [u8], version: u64) -> DeskCompiled {
    unsafe { desk_compile(text.as_ptr(), text.len(), table.as_mut_ptr(), table.len(), version) }
}

/// Whether a text compiles and the table begins with its compiled bytes.
pub fn begins(text: &[u8], table: &[u8]) -> bool {
    unsafe { desk_begins(text.as_ptr(), text.len(), table.as_ptr(), table.len()) }
}

/// Decides a request over a bag, by the policies of a text whose table is lent.
pub fn decide(text: &[u8], table: &[u8], bag: &[u8], subject: &[u8], action: &[u8], resource: &[u8]) -> DeskDecision {
    unsafe { desk_decide(text.as_ptr(), text.len(), table.as_ptr(), table.len(), bag.as_ptr(), bag.len(), subject.as_ptr(), subject.len(), action.as_ptr(), action.len(), resource.as_ptr(), resource.len()) }
}

/// An attribute's kind, number and place. Root byte 1 is principal, 2 resource, 3 env.
pub fn lookup(bag: &[u8], root: u8, path: &[u8]) -> DeskValue {
    unsafe { desk_lookup(bag.as_ptr(), bag.len(), root, path.as_ptr(), path.len()) }
}

/// Where the bytes of a string attribute lie, for callers that cannot take a part of the bag.
pub fn string(bag: &[u8], root: u8, path: &[u8]) -> DeskString {
    unsafe { desk_string(bag.as_ptr(), bag.len(), root, path.as_ptr(), path.len()) }
}

/// A page of the sheet from a start row on, written into the part of the lent sheet from byte `at` on. All other bytes stay, and a refusal changes nothing.
pub fn sheet(text: &[u8], table: &[u8], question: &[u8], subject: &[u8], action: &[u8], resource: &[u8], start: usize, sheet: &mut [u8], at: usize) -> DeskPage {
    unsafe { desk_sheet(text.as_ptr(), text.len(), table.as_ptr(), table.len(), question.as_ptr(), question.len(), subject.as_ptr(), subject.len(), action.as_ptr(), action.len(), resource.as_ptr(), resource.len(), start, sheet.as_mut_ptr(), sheet.len(), at) }
}

/// How many rows a question has, and 0 where the bytes are none.
pub fn rows(question: &[u8]) -> usize {
    unsafe { desk_rows(question.as_ptr(), question.len()) }
}

/// The tally of so many requests over one question. `requests` has subject, action and resource of each, each behind a length byte. `counts` has nine groups of 68 numbers, one for each of eight requests and the sums: the rows of outcome 1 to 4, then those that policy 1 to 64 decides. Answers the refusal's number, 0 where nothing is refused; a refusal changes nothing.
pub fn tally(text: &[u8], table: &[u8], question: &[u8], many: usize, requests: &[u8], counts: &mut [u32; 612]) -> u32 {
    unsafe { desk_tally(text.as_ptr(), text.len(), table.as_ptr(), table.len(), question.as_ptr(), question.len(), many, requests.as_ptr(), requests.len(), counts.as_mut_ptr()) }
}

/// Writes the permit that a lock says over the start of the room. The bytes past it stay, and a refusal changes nothing.
pub fn lock(vocabulary: &[u8], lock: &[u8], actions: &[u8], resource: &[u8], room: &mut [u8]) -> DeskLock {
    unsafe { desk_lock(vocabulary.as_ptr(), vocabulary.len(), lock.as_ptr(), lock.len(), actions.as_ptr(), actions.len(), resource.as_ptr(), resource.len(), room.as_mut_ptr(), room.len()) }
}

//! Compiling: a rule text read into its policies by recursive descent, or its refusal (01, "The rule text", "The table"
//! and "Refusal numbers"; 02, request 7).

use crate::characters::{characters_of, is_utf8};
use crate::numbers::Comparator;
use crate::policies::{
    ActionPart, Attribute, Call, Condition, Conjunction, Disjunction, Effect, Literal, Operand, Policy, PrincipalPart,
    ResourcePart, Root, Set, Span, Version, PRINCIPAL_TYPES, RESOURCE_TYPES,
};
use crate::table::{bytes_of, entries_of, recorded_version};
use crate::tokens::{self, place_of, token_at, Token};

/// 01, "Sizes": text 8,192 bytes.
pub const LONGEST_TEXT: usize = 8_192;
/// 01, "The table": at least 8 bytes of table must be lent for each byte of text.
pub const ROOM_FOR_EACH_BYTE: usize = 8;
/// 01, "Sizes": 64 policies.
pub const MOST_POLICIES: usize = 64;
/// 01, "Sizes": path 64 bytes with its dots.
pub const LONGEST_PATH: usize = 64;
/// 01, "Sizes": list 16 literals.
const MOST_LITERALS: usize = 16;
/// 01, "Sizes", and 02, request 5: `like` pattern 100 characters, 5 wildcards.
const LONGEST_PATTERN: usize = 100;
const MOST_WILDCARDS: usize = 5;
/// 01, "Sizes": conditions nest to 32 levels, the `when` braces are depth 1.
const DEEPEST: usize = 32;

/// 01, "Refusal numbers": the number and the place. 02, request 4: how many bytes the refused token has. Refusals 1, 2 and 30
/// have place 0, 0 and length 0.
#[derive(Clone, Copy, PartialEq, Eq, Debug)]
pub struct Refusal {
    pub number: u8,
    pub line: usize,
    pub column: usize,
    pub length: usize,
}

impl Refusal {
    /// A refusal that stands at no token.
    pub fn without_place(number: u8) -> Refusal {
        Refusal { number, line: 0, column: 0, length: 0 }
    }

    /// The line that programs print of it: `refused`, number, line, column, length.
    pub fn printed(self) -> String {
        format!("refused {} {} {} {}\n", self.number, self.line, self.column, self.length)
    }
}

/// A text that compiles: its policies with their version, and the bytes of its table.
#[derive(PartialEq, Debug)]
pub struct Compiled {
    pub set: Set,
    pub table: Vec<u8>,
}

/// Compile a text for a table with room for so many bytes, under the version of this number. 02, request 7: 30 comes before 1;
/// 01, "Refusal numbers": then 1 and 2, before any token's.
pub fn compile(text: &[u8], room: usize, version: u64) -> Result<Compiled, Refusal> {
    let version = Version::named(version).ok_or_else(|| Refusal::without_place(30))?;
    refuse_if_too_long(text)?;
    if room < ROOM_FOR_EACH_BYTE * text.len() {
        return Err(Refusal::without_place(2));
    }
    let policies = policies_of(text)?;
    let table = bytes_of(&entries_of(&policies, version));
    Ok(Compiled { set: Set::of(policies, version), table })
}

fn refuse_if_too_long(text: &[u8]) -> Result<(), Refusal> {
    if text.len() > LONGEST_TEXT {
        Err(Refusal::without_place(1))
    } else {
        Ok(())
    }
}

/// 01, "Refusal numbers", 20: the policies, unless the text gets a refusal but 2 or the table doesn't begin with its compiled
/// bytes; 02, request 7: under the version that the table records. For a text without policies any table will do.
pub fn set_said_by(text: &[u8], table: &[u8]) -> Option<Set> {
    let policies = policies_of(text).ok()?;
    if policies.is_empty() {
        return Some(Set { policies, version: None });
    }
    let version = recorded_version(table)?;
    if table.starts_with(&bytes_of(&entries_of(&policies, version))) {
        Some(Set::of(policies, version))
    } else {
        None
    }
}

/// The table of a text under a version, or no bytes if the text does not compile.
pub fn table_of(text: &[u8], version: Version) -> Vec<u8> {
    match policies_of(text) {
        Ok(policies) => bytes_of(&entries_of(&policies, version)),
        Err(_) => Vec::new(),
    }
}

/// A text is zero or more policies. Every refusal but 2 and 30 is given here.
pub fn policies_of(text: &[u8]) -> Result<Vec<Policy>, Refusal> {
    refuse_if_too_long(text)?;
    let mut reader = Reader { text, next: token_at(text, 0) };
    let mut policies = Vec::new();
    while reader.next.kind != tokens::END_OF_TEXT {
        let effect = reader.effect()?;
        if policies.len() == MOST_POLICIES {
            return reader.refuse(15);
        }
        policies.push(reader.policy(effect)?);
    }
    Ok(policies)
}

/// Reads a text token by token. Each function takes the tokens of its part, and leaves the token after them as next.
struct Reader<'a> {
    text: &'a [u8],
    /// The next token, not yet taken.
    next: Token,
}

/// Whether a path stands where `containsAll` or `containsAny` after it and a dot begins a call.
#[derive(Clone, Copy, PartialEq, Eq)]
enum PathPlace {
    LeftOperand,
    Elsewhere,
}

impl Reader<'_> {
    /// Refuse the next token. Its own refusals (3 to 6) are lower than all others; no admitted token has one. 02, request 4:
    /// the length is that of the token's bytes, a string's with its quotes, an unended one's to the end of text; 1 for a
    /// single bad byte, 0 at the end of text.
    fn refuse<T>(&self, number: u8) -> Result<T, Refusal> {
        let number = if self.next.is_refused() { self.next.kind } else { number };
        let place = place_of(self.text, self.next.start);
        let length = match self.next.kind {
            tokens::END_OF_TEXT => 0,
            tokens::BAD_BYTE | tokens::COLON => 1,
            tokens::UNENDED_STRING => self.text.len() - self.next.start,
            _ => self.next.end - self.next.start,
        };
        Err(Refusal { number, line: place.line, column: place.column, length })
    }

    fn take(&mut self) -> Token {
        let taken = self.next;
        self.next = token_at(self.text, taken.end);
        taken
    }

    /// Take the next token if it is of this kind.
    fn take_if(&mut self, kind: u8) -> bool {
        let fits = self.next.kind == kind;
        if fits {
            self.take();
        }
        fits
    }

    /// Only this kind of token is admitted (refusal 10).
    fn expect(&mut self, kind: u8) -> Result<Token, Refusal> {
        if self.next.kind == kind {
            Ok(self.take())
        } else {
            self.refuse(10)
        }
    }

    fn bytes(&self, span: Span) -> &[u8] {
        &self.text[span.start..span.end]
    }

    /// The bytes of a string between its quotes.
    fn inside(&self, string: Span) -> &[u8] {
        &self.text[string.start + 1..string.end - 1]
    }

    /// `permit` or `forbid`, not yet taken.
    fn effect(&self) -> Result<Effect, Refusal> {
        match self.next.kind {
            tokens::PERMIT => Ok(Effect::Permit),
            tokens::FORBID => Ok(Effect::Forbid),
            _ => self.refuse(10),
        }
    }

    /// A policy; its effect is the next token.
    fn policy(&mut self, effect: Effect) -> Result<Policy, Refusal> {
        self.take();
        self.expect(b'(')?;
        let principal = self.principal_part()?;
        self.expect(b',')?;
        let action = self.action_part()?;
        self.expect(b',')?;
        let resource = self.resource_part()?;
        self.expect(b')')?;
        let mut condition = None;
        if self.take_if(tokens::WHEN) {
            self.expect(b'{')?;
            condition = Some(self.disjunction(1)?);
            self.expect(b'}')?;
        }
        self.expect(b';')?;
        Ok(Policy { effect, principal, action, resource, condition })
    }

    /// Bare, or `is` a type.
    fn principal_part(&mut self) -> Result<PrincipalPart, Refusal> {
        self.expect(tokens::PRINCIPAL)?;
        if self.take_if(tokens::IS) {
            Ok(PrincipalPart::Is(self.type_among(&PRINCIPAL_TYPES)?))
        } else {
            Ok(PrincipalPart::Bare)
        }
    }

    /// Bare, or `in` a list of strings.
    fn action_part(&mut self) -> Result<ActionPart, Refusal> {
        self.expect(tokens::ACTION)?;
        if self.take_if(tokens::IN) {
            Ok(ActionPart::In(self.list(Reader::string)?))
        } else {
            Ok(ActionPart::Bare)
        }
    }

    /// Bare, `is` a type, or `==` a string.
    fn resource_part(&mut self) -> Result<ResourcePart, Refusal> {
        self.expect(tokens::RESOURCE)?;
        if self.take_if(tokens::IS) {
            Ok(ResourcePart::Is(self.type_among(&RESOURCE_TYPES)?))
        } else if self.take_if(b'=') {
            let string = self.string()?;
            self.refuse_unless_utf8()?;
            self.take();
            Ok(ResourcePart::Equals(string))
        } else {
            Ok(ResourcePart::Bare)
        }
    }

    /// 01, "Refusal numbers", 9: a name after `is` that is no type there. A reserved word there is 10.
    fn type_among(&mut self, types: &[&'static str]) -> Result<&'static str, Refusal> {
        if self.next.kind != tokens::NAME {
            return self.refuse(10);
        }
        let name = self.bytes(span_of(self.next));
        match types.iter().find(|known| known.as_bytes() == name) {
            Some(known) => {
                self.take();
                Ok(known)
            }
            None => self.refuse(9),
        }
    }

    /// A string, not yet taken.
    fn string(&self) -> Result<Span, Refusal> {
        if self.next.kind == tokens::STRING {
            Ok(span_of(self.next))
        } else {
            self.refuse(10)
        }
    }

    /// A literal, not yet taken.
    fn literal(&self) -> Result<Literal, Refusal> {
        match self.next.kind {
            tokens::STRING => Ok(Literal::String(span_of(self.next))),
            tokens::NUMBER => Ok(Literal::Number(span_of(self.next))),
            tokens::TRUE => Ok(Literal::Flag(true)),
            tokens::FALSE => Ok(Literal::Flag(false)),
            _ => self.refuse(10),
        }
    }

    /// 02, request 5, 17: the next token is a string that is not UTF-8. A string is asked where it is admitted, after all
    /// that comes first by number.
    fn refuse_unless_utf8(&self) -> Result<(), Refusal> {
        if self.next.kind == tokens::STRING && !is_utf8(self.inside(span_of(self.next))) {
            self.refuse(17)
        } else {
            Ok(())
        }
    }

    /// A list has at least one literal, and at most 16 (refusal 14 at the 17th). `member` looks at a literal that may
    /// stand in this list; one that may not is 10, which is lower than 14; and 14 is lower than 17.
    fn list<T>(&mut self, member: fn(&Self) -> Result<T, Refusal>) -> Result<Vec<T>, Refusal> {
        self.expect(b'[')?;
        let mut members = Vec::new();
        loop {
            let literal = member(self)?;
            if members.len() == MOST_LITERALS {
                return self.refuse(14);
            }
            self.refuse_unless_utf8()?;
            members.push(literal);
            self.take();
            if !self.take_if(b',') {
                self.expect(b']')?;
                return Ok(members);
            }
        }
    }

    /// Conjunctions joined by `||`, at this depth.
    fn disjunction(&mut self, depth: usize) -> Result<Disjunction, Refusal> {
        let mut conjunctions = vec![self.conjunction(depth)?];
        while self.take_if(b'|') {
            conjunctions.push(self.conjunction(depth)?);
        }
        Ok(Disjunction { conjunctions })
    }

    /// Conditions joined by `&&`, at this depth.
    fn conjunction(&mut self, depth: usize) -> Result<Conjunction, Refusal> {
        let mut conditions = vec![self.condition(depth)?];
        while self.take_if(b'&') {
            conditions.push(self.condition(depth)?);
        }
        Ok(Conjunction { conditions })
    }

    /// A condition at this depth.
    fn condition(&mut self, depth: usize) -> Result<Condition, Refusal> {
        match self.next.kind {
            b'!' => {
                let inside = self.deeper(depth)?;
                Ok(Condition::Not(Box::new(self.condition(inside)?)))
            }
            b'(' => {
                let inside = self.deeper(depth)?;
                let disjunction = self.disjunction(inside)?;
                self.expect(b')')?;
                Ok(Condition::Brackets(Box::new(disjunction)))
            }
            tokens::IF => {
                let inside = self.deeper(depth)?;
                let condition = Box::new(self.condition(inside)?);
                self.expect(tokens::THEN)?;
                let then_part = Box::new(self.condition(inside)?);
                self.expect(tokens::ELSE)?;
                let else_part = Box::new(self.condition(inside)?);
                Ok(Condition::If { condition, then_part, else_part })
            }
            kind => match root_of(kind) {
                Some(root) => self.condition_at_root(root),
                None => self.condition_at_literal(),
            },
        }
    }

    /// Take the admitted `!`, `(` or `if`. 01, "Refusal numbers", 12: unless its inside would be depth 33.
    fn deeper(&mut self, depth: usize) -> Result<usize, Refusal> {
        if depth == DEEPEST {
            return self.refuse(12);
        }
        self.take();
        Ok(depth + 1)
    }

    /// A condition that begins with a root: `has` and a path, a call, or an attribute as left operand.
    fn condition_at_root(&mut self, root: Root) -> Result<Condition, Refusal> {
        self.take();
        if self.take_if(tokens::HAS) {
            let (path, _) = self.path(root, PathPlace::Elsewhere)?;
            return Ok(Condition::Has(Attribute { root, path }));
        }
        self.expect(b'.')?;
        let (path, call) = self.path(root, PathPlace::LeftOperand)?;
        let attribute = Attribute { root, path };
        if let Some(call) = call {
            self.expect(b'(')?;
            let list = self.list(Reader::literal)?;
            self.expect(b')')?;
            return Ok(Condition::Contains { attribute, call, list });
        }
        match self.next.kind {
            // 01, "Refusal numbers", 8: a bare attribute.
            b'&' | b'|' | b')' | b'}' | tokens::THEN | tokens::ELSE => self.refuse(8),
            _ => self.condition_after_operand(Operand::Attribute(attribute)),
        }
    }

    /// A condition that begins with a literal: bare `true` or `false`, or a literal as left operand.
    fn condition_at_literal(&mut self) -> Result<Condition, Refusal> {
        let literal = self.literal()?;
        self.refuse_unless_utf8()?;
        self.take();
        let goes_on = comparator_of(self.next.kind).is_some() || matches!(self.next.kind, tokens::LIKE | tokens::IN);
        match literal {
            Literal::Flag(flag) if !goes_on => Ok(Condition::Flag(flag)),
            _ => self.condition_after_operand(Operand::Literal(literal)),
        }
    }

    /// What follows a left operand: a comparator and an operand, `like` and a pattern, `in` and a list or an attribute.
    fn condition_after_operand(&mut self, operand: Operand) -> Result<Condition, Refusal> {
        if let Some(comparator) = comparator_of(self.next.kind) {
            self.take();
            let right = self.right_operand()?;
            return Ok(Condition::Compare { left: operand, comparator, right });
        }
        if self.take_if(tokens::LIKE) {
            let pattern = self.pattern()?;
            return Ok(Condition::Like { operand, pattern });
        }
        self.expect(tokens::IN)?;
        // 01, "Rulings": after `in` a plain literal isn't admitted.
        match root_of(self.next.kind) {
            Some(root) => {
                let attribute = self.right_attribute(root)?;
                Ok(Condition::InAttribute { operand, attribute })
            }
            None => {
                let list = self.list(Reader::literal)?;
                Ok(Condition::InList { operand, list })
            }
        }
    }

    fn right_operand(&mut self) -> Result<Operand, Refusal> {
        match root_of(self.next.kind) {
            Some(root) => Ok(Operand::Attribute(self.right_attribute(root)?)),
            None => {
                let literal = self.literal()?;
                self.refuse_unless_utf8()?;
                self.take();
                Ok(Operand::Literal(literal))
            }
        }
    }

    /// An attribute that is no left operand; its root is the next token.
    fn right_attribute(&mut self, root: Root) -> Result<Attribute, Refusal> {
        self.take();
        self.expect(b'.')?;
        let (path, _) = self.path(root, PathPlace::Elsewhere)?;
        Ok(Attribute { root, path })
    }

    /// 01, "Refusal numbers", 13, and "Sizes": at most 100 characters and 5 wildcards, without `[`, `{` or `**`. 02, request 5:
    /// 17 comes before 13.
    fn pattern(&mut self) -> Result<Span, Refusal> {
        let string = self.string()?;
        let inside = self.inside(string);
        let characters = match characters_of(inside) {
            Some(characters) => characters.len(),
            None => return self.refuse(17),
        };
        let wildcards = inside.iter().filter(|byte| matches!(byte, b'*' | b'?')).count();
        let has_bad_byte = inside.iter().any(|byte| matches!(byte, b'[' | b'{'));
        let has_two_stars = inside.windows(2).any(|two| two == b"**");
        if characters > LONGEST_PATTERN || wildcards > MOST_WILDCARDS || has_bad_byte || has_two_stars {
            return self.refuse(13);
        }
        self.take();
        Ok(string)
    }

    /// A path is names joined by dots. 01, "Rulings": where an attribute is a left operand, `containsAll` or
    /// `containsAny` after its path and a dot begins the call; that word is taken too.
    fn path(&mut self, root: Root, place: PathPlace) -> Result<(Span, Option<Call>), Refusal> {
        let first = self.path_name(root, 0)?;
        let mut path = span_of(first);
        let mut length = path.end - path.start;
        while self.take_if(b'.') {
            let call = call_of(self.next.kind);
            if place == PathPlace::LeftOperand && call.is_some() {
                self.take();
                return Ok((path, call));
            }
            let name = self.path_name(root, length + 1)?;
            path.end = name.end;
            length += 1 + name.end - name.start;
        }
        Ok((path, None))
    }

    /// A name of a path that has `before` bytes so far, the dot before this name included; 0 before the first name.
    fn path_name(&mut self, root: Root, before: usize) -> Result<Token, Refusal> {
        let name = self.next;
        if name.is_reserved() {
            return self.refuse(7);
        }
        if name.kind != tokens::NAME {
            return self.refuse(10);
        }
        let is_action_name = before == 0 && self.bytes(span_of(name)) == b"name";
        if root == Root::Action && !is_action_name {
            return self.refuse(11);
        }
        if before + (name.end - name.start) > LONGEST_PATH {
            return self.refuse(16);
        }
        Ok(self.take())
    }
}

fn span_of(token: Token) -> Span {
    Span { start: token.start, end: token.end }
}

/// 01, "The rule text": the roots.
fn root_of(kind: u8) -> Option<Root> {
    match kind {
        tokens::PRINCIPAL => Some(Root::Principal),
        tokens::RESOURCE => Some(Root::Resource),
        tokens::ACTION => Some(Root::Action),
        tokens::ENV => Some(Root::Env),
        _ => None,
    }
}

fn call_of(kind: u8) -> Option<Call> {
    match kind {
        tokens::CONTAINS_ALL => Some(Call::ContainsAll),
        tokens::CONTAINS_ANY => Some(Call::ContainsAny),
        _ => None,
    }
}

fn comparator_of(kind: u8) -> Option<Comparator> {
    match kind {
        b'=' => Some(Comparator::Equal),
        tokens::NOT_EQUAL => Some(Comparator::NotEqual),
        b'>' => Some(Comparator::Greater),
        tokens::GREATER_OR_EQUAL => Some(Comparator::GreaterOrEqual),
        b'<' => Some(Comparator::Less),
        tokens::LESS_OR_EQUAL => Some(Comparator::LessOrEqual),
        _ => None,
    }
}

#[cfg(test)]
mod tests {
    use super::*;

    const P: &str = "permit(principal,action,resource)";
    /// What a text without policies compiles to: no version, and no bytes.
    const EMPTY: Compiled = Compiled { set: Set { policies: Vec::new(), version: None }, table: Vec::new() };

    fn refusal(text: &[u8]) -> Option<(u8, usize, usize)> {
        match compile(text, 8 * text.len(), 1) {
            Ok(_) => None,
            Err(refusal) => Some((refusal.number, refusal.line, refusal.column)),
        }
    }

    /// The refusal of a text whose only `^` marks the place of the refusal and is taken out; `^` nowhere means none.
    fn check(number: u8, marked: &str) {
        let text = marked.replacen('^', "", 1);
        let expected = marked.find('^').map(|offset| {
            let place = place_of(text.as_bytes(), offset);
            (number, place.line, place.column)
        });
        assert_eq!(refusal(text.as_bytes()), expected, "{}", marked);
    }

    /// The same for a condition, with `}` and `;` after it.
    fn check_condition(number: u8, marked: &str) {
        check(number, &format!("{}when{{{}}};", P, marked));
    }

    fn passes(condition: &str) {
        check_condition(0, condition);
    }

    #[test]
    fn the_checked_examples_a_to_f() {
        assert_eq!(compile(b"", 0, 1), Ok(EMPTY));
        assert_eq!(policies_of(format!("{};", P).as_bytes()).unwrap().len(), 1);
        for (rest, number, column, length) in [
            ("", 10, 34, 0),
            ("when{principal.a};", 8, 50, 1),
            ("when{principal.if==1};", 7, 49, 2),
            ("when{action.kind==\"x\"};", 11, 46, 4),
        ] {
            let refused = policies_of(format!("{}{}", P, rest).as_bytes());
            assert_eq!(refused, Err(Refusal { number, line: 1, column, length }));
        }
    }

    #[test]
    fn the_sheet_programs_example_compiles() {
        let text = "permit(principal is person, action, resource is shaft)\n  when { principal.grade >= 3 };\n\
            forbid(principal, action in [\"teach\"], resource)\n  when { principal.hired != \"own\" };\n";
        assert_eq!(policies_of(text.as_bytes()).unwrap().len(), 2);
    }

    // 01, "Refusal numbers": 1 and 2 come first, with place 0, 0.
    #[test]
    fn the_text_and_the_room_come_first() {
        let numbers = |text: &[u8], room: usize| compile(text, room, 1).map(|_| ()).map_err(|refusal| refusal.number);
        assert_eq!(numbers(&[b' '; 8_192], 65_536), Ok(()));
        assert_eq!(numbers(&[b' '; 8_192], 65_535), Err(2));
        assert_eq!(numbers(&[b' '; 8_193], 0), Err(1));
        assert_eq!(numbers(&[b':'; 8_193], 80_000), Err(1));
        assert_eq!(numbers(b":", 7), Err(2));
        assert_eq!(numbers(b":", 8), Err(4));
        assert_eq!(numbers(b"", 0), Ok(()));
        assert_eq!(compile(b" ", 7, 1), Err(Refusal { number: 2, line: 0, column: 0, length: 0 }));
        assert_eq!(compile(b" \n", 16, 1), Ok(EMPTY));
    }

    // 02, request 7: 30 before 1, whatever else is wrong; a number of any width, and only 1 and 2 are versions.
    #[test]
    fn the_version_comes_before_all() {
        let good = format!("{};", P);
        for text in [&b""[..], b":", b"permit", good.as_bytes(), &[b' '; 8_193]] {
            for room in [0, 8 * text.len()] {
                for version in [0, 3, 4, 256, 257, 258, (1 << 32) + 1, (1 << 32) + 2, 1 << 63, u64::MAX] {
                    let expected = Refusal { number: 30, line: 0, column: 0, length: 0 };
                    assert_eq!(compile(text, room, version), Err(expected), "{}", version);
                }
                for version in [1, 2] {
                    assert_ne!(compile(text, room, version).map_err(|refusal| refusal.number), Err(30));
                }
            }
        }
        for (version, kind) in [(1, 29), (2, 36)] {
            let compiled = compile(good.as_bytes(), 8 * good.len(), version).unwrap();
            assert_eq!(compiled.set.version.map(Version::number), Some(version));
            assert_eq!((compiled.table[0], compiled.table.len()), (kind, 20));
            assert_eq!(compile(b" ", 8, version), Ok(EMPTY));
            assert_eq!(compile(b"permit", 48, version).unwrap_err().number, 10);
        }
    }

    // 02, request 7: the table records the version; one that records neither, or two, is not the text's.
    #[test]
    fn a_table_is_good_under_the_version_that_it_records() {
        let text = format!("{};forbid(principal is tool,action,resource)when{{env.a==1}};", P);
        let text = text.as_bytes();
        let version_of = |table: &[u8]| set_said_by(text, table).map(|set| set.version.unwrap().number());
        let [one, two] = Version::ALL.map(|version| table_of(text, version));
        for (number, table) in [(1, &one), (2, &two)] {
            assert_eq!(version_of(table), Some(number));
            assert_eq!(version_of(&[table, &b"more"[..]].concat()), Some(number));
            assert_eq!(version_of(&table[..table.len() - 1]), None);
            for kind in (0..=u8::MAX).filter(|kind| *kind != table[0]) {
                let mut other = table.clone();
                other[0] = kind;
                assert_eq!(version_of(&other), None, "{}", kind);
                other[0] = table[0];
                other[20] = kind;
                assert_eq!(version_of(&other).is_some(), kind == table[20], "{}", kind);
            }
        }
        for table in [&[][..], &[29], &[36], &[36, 0, 0, 0]] {
            assert_eq!(version_of(table), None);
        }
        for table in [&[][..], &one, &two, &[0], &[38; 40]] {
            for empty in [&b""[..], b" \n"] {
                assert_eq!(set_said_by(empty, table), Some(EMPTY.set));
            }
        }
    }

    // 3 to 6 are lower than every refusal of the grammar.
    #[test]
    fn a_tokens_own_refusal_comes_before_the_others() {
        let word = "w".repeat(65);
        check(6, &format!("^{}", word));
        check(6, &format!("permit(principal is ^{}", word));
        check_condition(6, &format!("principal.^{}==1", word));
        check_condition(6, &format!("action.^{}==1", word));
        check_condition(6, &format!("principal.{}.^{}==1", "w".repeat(64), word));
        check_condition(6, &format!("1 like ^\"{}\"", "*".repeat(128)));
        check_condition(6, &format!("1==^{}", "1".repeat(16)));
        check(3, "^@");
        check(3, "permit ^& permit");
        check(3, "\"a^\tb\"");
        check(3, &format!("\"{}^\u{1}", "x".repeat(300)));
        check(4, "permit^:");
        check(5, &format!("permit ^\"{}", "x".repeat(300)));
        check_condition(5, "1 like ^\"**");
        check_condition(3, "1==^=1");
        check_condition(3, "principal.a == ^-x");
        check_condition(3, "principal.a ^| true");
    }

    /// 02, request 4: the refused token goes from `^` up to `~`; both are taken out.
    fn check_length(number: u8, marked: &str) {
        let start = marked.find('^').unwrap();
        let end = marked.find('~').unwrap() - 1;
        let text = marked.replacen('^', "", 1).replacen('~', "", 1);
        let place = place_of(text.as_bytes(), start);
        let expected = Refusal { number, line: place.line, column: place.column, length: end - start };
        assert_eq!(policies_of(text.as_bytes()), Err(expected), "{}", marked);
    }

    // 02, request 4: a string counts its quotes, an unended one to the end of text; a bad byte is 1, the end of text 0.
    #[test]
    fn a_refusal_tells_how_many_bytes_its_token_has() {
        let when = |condition: &str| format!("{} when {{ {} }};", P, condition);
        for (number, condition) in [
            (3, "1 ^&~ 2"),
            (3, "1 == \"ab^\n~cd\""),
            (4, "1 ^:~ 2"),
            (7, "env.^containsAll~ == 1"),
            (8, "env.a ^&&~ true"),
            (8, "if env.a ^then~ true else true"),
            (10, "^<=~ 1"),
            (10, "1 == 1 ^\"two words\"~"),
            (10, "1 == 1 ^-12.50~"),
            (11, "action.^kind~ == 1"),
            (13, "1 like ^\"a**b\"~"),
            (14, "1 in [1,2,3,4,5,6,7,8,9,10,11,12,13,14,15,16,^\"17\"~]"),
        ] {
            check_length(number, &when(condition));
        }
        for (number, mark) in [(12, "^(~"), (12, "^!~"), (12, "^if~")] {
            check_length(number, &when(&format!("{}{} true", "(".repeat(31), mark)));
        }
        check_length(3, "^\0~");
        check_length(5, &format!("{} when {{ 1 == ^\"a b; ~", P));
        check_length(5, "^\"~");
        check_length(6, &format!("^{}~ x", "w".repeat(65)));
        check_length(6, &when(&format!("1 == ^\"{}\"~", "s".repeat(128))));
        check_length(6, &when(&format!("1 == ^-{}.5~", "1".repeat(15))));
        check_length(9, "permit(principal is ^dog~,");
        check_length(10, "permit\n^~");
        check_length(10, "permit(principal^;~");
        check_length(15, &format!("{}^forbid~", format!("{};", P).repeat(64)));
        check_length(16, &when(&format!("env.{}.^b-c~ == 1", "a".repeat(62))));
        assert_eq!(policies_of("permit ü".as_bytes()), Err(Refusal { number: 3, line: 1, column: 8, length: 1 }));
    }

    // 01, "The rule text": the target.
    #[test]
    fn targets_are_read_as_said() {
        check(10, "^(principal,action,resource);");
        check(10, "permit ^principal");
        check(10, "permit(^action");
        check(10, "permit(principal^)");
        check(10, "permit(principal ^== \"person:1\"");
        check(10, "permit(principal,action,resource^,");
        check(10, "permit(principal,action ^is");
        check(10, "permit(principal,action in ^\"a\"");
        check(10, "permit(principal,action in [^]");
        check(10, "permit(principal,action in [^1]");
        check(10, "permit(principal,action in [\"a\",^true]");
        check(10, "permit(principal,action in [\"a\",^]");
        check(10, "permit(principal,action in [\"a\" ^\"b\"]");
        check(10, "permit(principal,action,resource ^in [");
        check(10, "permit(principal,action,resource == ^shaft");
        check(10, "permit(principal,action,resource is ^\"shaft\"");
        check(10, &format!("{}^}}", P));
        check(10, &format!("{}when^;", P));
        check(10, &format!("{}when{{^}};", P));
        check(10, &format!("{}when{{true}}^", P));
        check(10, &format!("{};^;", P));
        check(10, &format!("{};^when", P));
        check(0, &format!("{};{}\n; \r", P, P));
        check(0, "permit(principal is tool,action in[\"\",\"\"],resource==\"\");");
    }

    // A name after `is` that is no type there; a reserved word there is no name.
    #[test]
    fn types_are_closed_lists() {
        check(9, "permit(principal is ^shaft");
        check(9, "permit(principal is ^Person");
        check(9, "permit(principal is ^name");
        check(9, "permit(principal,action,resource is ^person");
        check(9, "permit(principal,action,resource is ^shafts");
        check(10, "permit(principal is ^if");
        check(10, "permit(principal is ^principal");
        check(10, "permit(principal is ^\"person\"");
        check(10, "permit(principal is^");
        check(10, "permit(principal is person ^tool");
        for name in PRINCIPAL_TYPES {
            check(0, &format!("permit(principal is {},action,resource);", name));
        }
        for name in RESOURCE_TYPES {
            check(0, &format!("permit(principal,action,resource is {});", name));
        }
    }

    #[test]
    fn a_bare_attribute_is_refused_at_the_token_after_it() {
        for after in ["&&", "||", ")", "}", "then", "else"] {
            check_condition(8, &format!("principal.a ^{}", after));
            check_condition(8, &format!("(true||!action.name ^{}", after));
            check_condition(8, &format!("if env.a.b ^{}", after));
            check_condition(10, &format!("principal ^{}", after));
            check_condition(10, &format!("1 ^{}", after));
            check_condition(10, &format!("\"x\" ^{}", after));
            check_condition(10, &format!("principal.a.containsAll ^{}", after));
        }
        for after in [";", ",", "a", "1", "\"x\"", "true", "{", "(", "]", "!", "has", "is", "if", "when", "principal"] {
            check_condition(10, &format!("principal.a ^{}", after));
        }
        check(10, &format!("{}when{{principal.a^", P));
        check_condition(10, "true ^)");
        check_condition(10, "true ^then true");
        check_condition(10, "1==principal.a ^)");
    }

    #[test]
    fn the_conditions_are_those_of_01() {
        for condition in [
            "true",
            "false",
            "true==false",
            "true in[true]",
            "false like\"\"",
            "1<2",
            "\"a\"!=\"b\"",
            "1in[1]",
            "\"a\"like\"b\"",
            "if 1==1then true else false",
            "principal.a==resource.b",
            "env.a>=-1",
            "1<=env.a",
            "principal . a\n.\tb\r== 1",
            "1 in principal.l",
            "true in env.a.b",
            "principal.a in[1,true,\"x\",-0.5]",
            "principal.a.containsAll([1])",
            "principal . a . containsAny ( [ \"x\" , true ] )",
            "principal has a.b",
            "action has name",
            "action.name==\"x\"",
            "action.name.containsAll([\"x\"])",
            "\"x\" in action.name",
            "!true",
            "!!true",
            "! principal.a==1&&true",
            "(true)",
            "(true||false&&(true))",
            "if true then true else true&&false",
            "if if true then true else true then true else true",
            "if !true then (true||false) else !principal has a",
            "principal.person==1",
            "principal.containsall==1",
            "principal.name.name==1",
            "true&&true&&true||true&&true||true",
        ] {
            passes(condition);
        }
        for marked in [
            "^a",
            "^",
            "^)",
            "^is",
            "^[1]==1",
            "(^)",
            "(true^",
            "true==^",
            "true^.containsAll([1])",
            "\"x\"^.containsAll([1])",
            "1^.a",
            "5^.",
            "^.5",
            "1^-5",
            "1^e5",
            "true ^true",
            "true&&^",
            "true||^&&true",
            "!^&&",
            "true^!",
            "if ^then",
            "if true^&&true then true else true",
            "if true then true^||true else true",
            "if true then true^",
            "if true then true else ^",
            "if (true) ^else true",
            "principal.a==^",
            "principal.a==^(1)",
            "principal.a==^[1]",
            "principal.a==1^==1",
            "principal.a==1^like\"x\"",
            "principal.a in ^1",
            "principal.a in ^\"x\"",
            "principal.a in ^true",
            "principal.a in ^(",
            "principal.a in [^]",
            "principal.a in [^principal.a]",
            "principal.a in [1^;]",
            "principal.a in [1,^]",
            "principal.a in [^[1]]",
            "principal.a in resource^",
            "principal.a in resource ^has a",
            "principal.a==resource ^has a",
            "principal.a ^has b",
            "principal^==1",
            "action ^in [\"read\"]",
            "principal ^like \"x\"",
            "principal.a like ^resource.b",
            "principal.a like ^1",
            "principal.a like ^[",
            "5 ^has foo",
            "principal.a.containsAll^[1]",
            "principal.a.containsAll^",
            "principal.a.containsAll(^1)",
            "principal.a.containsAll(^)",
            "principal.a.containsAll([1]^]",
            "principal.a.containsAll([1])^.b",
            "principal.a.containsAll([1])^==true",
            "principal has ^",
            "principal has ^1",
            "principal has ^(",
            "principal has a^==1",
            "principal has a.^1",
            "principal.^1==1",
            "principal.a.^\"x\"",
            "principal.^",
            "principal ^a",
            "^permit",
            "^like \"x\"",
        ] {
            check_condition(10, marked);
        }
        check(10, &format!("{}when{{principal.^", P));
        check(10, &format!("{}when{{principal.a.^", P));
    }

    // 01, "Rulings": a call begins only after the path of a left operand.
    #[test]
    fn reserved_words_are_no_path_names() {
        for word in tokens::RESERVED_WORDS {
            check_condition(7, &format!("principal.^{}(", word));
            check_condition(7, &format!("action.^{}==1", word));
            check_condition(7, &format!("principal has ^{}", word));
            check_condition(7, &format!("principal has a.^{}([1])", word));
            check_condition(7, &format!("action has name.^{}", word));
            check_condition(7, &format!("1==principal.^{}", word));
            check_condition(7, &format!("1==principal.a.^{}([1])", word));
            check_condition(7, &format!("1 in principal.a.^{}", word));
            if !word.starts_with("contains") {
                check_condition(7, &format!("principal.a.^{}==1", word));
                check_condition(7, &format!("action.name.^{}==1", word));
            }
        }
        check_condition(10, "principal.a.containsAny^}");
        check_condition(10, "principal.a.containsAny ^.b");
        check_condition(7, "principal.^containsAll.");
    }

    #[test]
    fn only_name_may_follow_action() {
        check_condition(11, "action.^kind==1");
        check_condition(11, "action.^Name==1");
        check_condition(11, "action has ^kind");
        check_condition(11, "action.name.^x==1");
        check_condition(11, "action.name.^name==1");
        check_condition(11, "action has name.^x");
        check_condition(11, "1==action.^x");
        check_condition(11, "1 in action.^x");
        check_condition(11, &format!("action.name.^{}==1", "w".repeat(64)));
        check_condition(10, "action.^\"name\"==1");
    }

    // 01, "Checked examples": 31 nested brackets pass, the 32nd gives 12; `!` and `if` count like brackets.
    #[test]
    fn conditions_nest_to_32_levels() {
        let nest = |before: &str, after: &str, count: usize| (before.repeat(count), after.repeat(count));
        for (before, after) in [
            ("(", ")"),
            ("!", ""),
            ("if true then true else ", ""),
            ("if true then ", " else true"),
            ("if ", " then true else true"),
        ] {
            let (left, right) = nest(before, after, 31);
            passes(&format!("{}true{}", left, right));
            passes(&format!("{}principal.a.containsAll([1]){}", left, right));
            for deeper in ["(", "!", "if"] {
                check_condition(12, &format!("{}^{} true{}", left, deeper, right));
                check_condition(10, &format!("{}true ^{} true{}", left, deeper, right));
            }
        }
        let mixed = "(!if true then ".repeat(10);
        check_condition(12, &format!("{}(^(true", mixed));
        // Depth ends with its brackets.
        let (left, right) = nest("(", ")", 31);
        let full = format!("{}true{}", left, right);
        passes(&format!("{}&&{}||!true", full, full));
    }

    #[test]
    fn patterns_keep_their_rule() {
        passes(&format!("1 like\"{}\"", "a".repeat(100)));
        check_condition(13, &format!("1 like ^\"{}\"", "a".repeat(101)));
        check_condition(13, &format!("1 like ^\"{}\"", "a".repeat(127)));
        passes("1 like\"*?*?*\"");
        passes("1 like\"?????\"");
        check_condition(13, "1 like ^\"*?*?*?\"");
        check_condition(13, "1 like ^\"??????\"");
        check_condition(13, "1 like ^\"[\"");
        check_condition(13, "1 like ^\"a{\"");
        check_condition(13, "1 like ^\"a**\"");
        passes("1 like\"]}\\\"");
        passes("1==\"[{**\"");
        // 02, request 5: 100 characters, in at most 127 bytes.
        passes(&format!("1 like\"{}a\"", "ü".repeat(63)));
        passes(&format!("1 like\"{}{}\"", "ü".repeat(27), "a".repeat(73)));
        check_condition(13, &format!("1 like ^\"{}{}\"", "ü".repeat(26), "a".repeat(75)));
        passes(&format!("1 like\"{}{}\"", "😀".repeat(9), "a".repeat(91)));
        check_condition(6, &format!("1 like ^\"{}\"", "😀".repeat(32)));
    }

    /// The refusal of a text of any bytes whose only `^` marks its place, which has so many columns before it.
    fn check_bytes(number: u8, marked: &[u8], columns: usize) {
        let offset = marked.iter().position(|byte| *byte == b'^').unwrap();
        let text = [&marked[..offset], &marked[offset + 1..]].concat();
        assert_eq!(refusal(&text), Some((number, 1, columns + 1)), "{}", marked.escape_ascii());
    }

    // 02, request 5: 17 wherever a string is admitted; its place is the opening quote.
    #[test]
    fn strings_are_utf8() {
        for (before, after) in [
            ("permit(principal,action in[", ""),
            ("permit(principal,action in[\"a\",", "]"),
            ("permit(principal,action,resource==", ");"),
            ("permit(principal,action,resource)when{", ""),
            ("permit(principal,action,resource)when{1==", "};"),
            ("permit(principal,action,resource)when{1 in[1,", "]"),
            ("permit(principal,action,resource)when{env.a.containsAll([", "])"),
            ("permit(principal,action,resource)when{env.a like", "};"),
            ("permit(principal,action,resource)when{\"Sud\"==", "};"),
        ] {
            for string in [&b"\"S\xFCd\""[..], b"\"\xC0\x80\"", b"\"\xED\xA0\x80\"", b"\"a\xC3\"", b"\"\x80\""] {
                check_bytes(17, &[before.as_bytes(), b"^", string, after.as_bytes()].concat(), before.len());
            }
            let good = policies_of(&[before.as_bytes(), "\"Süd\"".as_bytes(), after.as_bytes()].concat());
            assert!(good.map_or(true, |policies| policies.len() == 1) || !after.ends_with(';'));
        }
        let long = [b"when{1 like^\"".as_slice(), &[0xFF; 128], b"\""].concat();
        check_bytes(6, &[P.as_bytes(), &long].concat(), 44);
        check_bytes(5, b"permit(principal,action,resource==^\"\xFF", 34);
    }

    // 02, request 5: by number, but before 13.
    #[test]
    fn what_is_not_utf8_comes_by_number_but_before_a_pattern() {
        let list = "1,".repeat(16);
        check_bytes(14, &[P.as_bytes(), b"when{1 in[", list.as_bytes(), b"^\"\xFF\""].concat(), 75);
        check_bytes(10, b"permit(principal is ^\"\xFF\"", 20);
        check_bytes(10, b"^\"\xFF\"", 0);
        for pattern in [&b"**\xFF"[..], b"\xFF[", b"{\xC3", b"??????\x80", &[0xFF; 127]] {
            check_bytes(17, &[P.as_bytes(), b"when{1 like ^\"", pattern, b"\"};"].concat(), 45);
        }
        check_bytes(3, &[P.as_bytes(), b"when{1 like \"\xFF^\x01\"};"].concat(), 47);
    }

    #[test]
    fn lists_have_16_literals() {
        let list = |literal: &str, count: usize| vec![literal; count].join(",");
        passes(&format!("1 in[{}]", list("1", 16)));
        passes(&format!("env.a.containsAny([{}])", list("true", 16)));
        check_condition(14, &format!("1 in[{},^1]", list("1", 16)));
        check_condition(14, &format!("env.a.containsAll([{},^\"\"]", list("1", 16)));
        check_condition(10, &format!("1 in[{},^]", list("1", 16)));
        check_condition(10, &format!("1 in[{},^a]", list("1", 16)));
        let action = "permit(principal,action in[";
        check(0, &format!("{}{}],resource);", action, list("\"a\"", 16)));
        check(14, &format!("{}{},^\"a\"", action, list("\"a\"", 16)));
        check(10, &format!("{}{},^1", action, list("\"a\"", 16)));
        check(10, &format!("{}{},^]", action, list("\"a\"", 16)));
        check(6, &format!("{}{},^\"{}\"", action, list("\"a\"", 16), "a".repeat(128)));
    }

    #[test]
    fn a_text_has_64_policies() {
        let policies = format!("{};", P).repeat(64);
        check(0, &policies);
        check(15, &format!("{}^permit", policies));
        check(15, &format!("{}\n ^forbid(x", policies));
        check(10, &format!("{}^when", policies));
        check(10, &format!("{}^;", policies));
        check(3, &format!("{}^/", policies));
    }

    // 64 bytes with its dots, without the blanks.
    #[test]
    fn paths_have_64_bytes() {
        let long = "w".repeat(60);
        for (before, after) in [("", "==1"), ("1==", ""), ("1 in ", "")] {
            passes(&format!("{}principal.{}.abc{}", before, long, after));
            passes(&format!("{}principal.{} \n. abc{}", before, long, after));
            check_condition(16, &format!("{}principal.{}.^abcd{}", before, long, after));
            check_condition(16, &format!("{}principal . {} . a . ^bc{}", before, long, after));
            check_condition(7, &format!("{}principal.{}.abc.^if", before, long));
        }
        passes(&format!("env has {}.abc", long));
        check_condition(16, &format!("env has {}.^abcd", long));
        passes(&format!("env.{}.abc.containsAll([1])", long));
        passes(&format!("env.{}.containsAny([1])", "w".repeat(64)));
        check_condition(16, &format!("env.{}.^a.containsAny([1])", "w".repeat(64)));
        check_condition(7, &format!("env has {}.abc.^containsAll", long));
        check_condition(10, &format!("env.{}.abc.^1", long));
    }

    // Chains are long: 8,192 bytes of `&&` or `||`.
    #[test]
    fn chains_go_over_the_whole_text() {
        for join in ["&&", "||"] {
            let before = format!("{}when{{1<1", P);
            let mut text = before.clone();
            while text.len() + 7 <= 8_192 {
                text.push_str(&format!("{}1<1", join));
            }
            text.push_str("};");
            text.push_str(&" ".repeat(8_192 - text.len()));
            let compiled = compile(text.as_bytes(), 65_536, 1).unwrap();
            let members = text.matches("1<1").count();
            assert_eq!(compiled.table.len(), 5 * (4 + 3 * members + members - 1));
        }
    }

    // 01, "Refusal numbers": only a line feed ends a line, the end of text is one past the last byte.
    #[test]
    fn places_are_lines_and_columns() {
        assert_eq!(refusal(b"permit\n"), Some((10, 2, 1)));
        assert_eq!(refusal(b"permit \r "), Some((10, 1, 10)));
        assert_eq!(refusal(b"\n\r\n\t x"), Some((10, 3, 3)));
        assert_eq!(refusal("\"ü\n".as_bytes()), Some((3, 1, 3)));
    }

    #[test]
    fn the_table_must_begin_with_the_compiled_bytes() {
        let text = format!("{};", P);
        let mut table = compile(text.as_bytes(), 1_000, 1).unwrap().table;
        let says = |table: &[u8]| set_said_by(text.as_bytes(), table).is_some();
        assert!(says(&table));
        assert!(!says(&table[..table.len() - 1]));
        table.push(9);
        assert!(says(&table));
        table[3] ^= 1;
        assert!(!says(&table));
        assert!(set_said_by(b"", b"").is_some());
        assert!(set_said_by(P.as_bytes(), &[0; 100]).is_none());
        assert!(set_said_by(&[b' '; 8_193], b"").is_none());
    }

    // The tree of one condition of each form, by hand.
    #[test]
    fn the_tree_is_as_written() {
        let text = format!("{}when{{!env.a==1||(true)&&action has name}};", P);
        let policies = policies_of(text.as_bytes()).unwrap();
        let not = Condition::Not(Box::new(Condition::Compare {
            left: Operand::Attribute(Attribute { root: Root::Env, path: Span { start: 43, end: 44 } }),
            comparator: Comparator::Equal,
            right: Operand::Literal(Literal::Number(Span { start: 46, end: 47 })),
        }));
        let inside = Disjunction { conjunctions: vec![Conjunction { conditions: vec![Condition::Flag(true)] }] };
        let brackets = Condition::Brackets(Box::new(inside));
        let has = Condition::Has(Attribute { root: Root::Action, path: Span { start: 68, end: 72 } });
        let expected = Disjunction {
            conjunctions: vec![Conjunction { conditions: vec![not] }, Conjunction { conditions: vec![brackets, has] }],
        };
        assert_eq!(policies[0].condition, Some(expected));
        assert_eq!(policies[0].effect, Effect::Permit);
    }
}

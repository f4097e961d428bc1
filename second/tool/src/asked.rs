//! What is asked: rules, a question or bag, and a request, read from a folder or a question's text. What was made of the text earlier
//! (question.bin, request.txt) must still be what it says.

use std::fs;
use std::path::Path;

use definitions::asking::{requests_file, Case};
use definitions::bags::Content;
use definitions::compile::policies_of;
use definitions::deciding::Request;
use definitions::policies::Version;
use definitions::questions::{read_question, Question};
use definitions::sheets::read_request;

use crate::bytes::read_bytes;
use crate::command::{not_asked, read_file, read_if_there, Done};
use crate::form::{whole_request, Form, Parts, SaidParts, PARTS};
use crate::places::wrong_in_text;
use crate::reading::{first_comment, read_text};
use crate::words::count_of;
use crate::writing::quoted;

/// The names of a folder's files.
pub const RULES: &str = "policy.txt";
pub const QUESTION: &str = "question.txt";
const QUESTION_BYTES: &str = "question.bin";
const REQUEST: &str = "request.txt";
const REQUESTS: &str = "requests.bin";

/// Rules, and a question or bag with its requests.
#[derive(Clone)]
pub struct Asked {
    pub rules_name: String,
    pub rules: Vec<u8>,
    /// The version of the rules that is asked for; only 1 and 2 are one.
    pub version: u64,
    /// The file that says the question, and its bytes as they stand there.
    pub name: String,
    pub file: Vec<u8>,
    pub form: Form,
    /// The bytes that the sheet program reads.
    pub sent: Vec<u8>,
    /// All requests, from the first on, and the one that is asked about where it is one.
    pub requests: Vec<Parts>,
    pub request: Parts,
    /// The file that says the request, if the question's text does not.
    pub request_file: Option<(String, Vec<u8>)>,
    /// The first comment of the question's text.
    pub title: Option<String>,
    pub warnings: Vec<String>,
}

impl Asked {
    pub fn request(&self) -> Request<'_> {
        let [subject, action, resource] = &self.request;
        Request { subject, action, resource }
    }

    /// The version by which an answer is explained: the one that is asked for. Where that is none, there is no answer but a refusal.
    pub fn known_version(&self) -> Version {
        Version::named(self.version).unwrap_or(Version::One)
    }

    /// The same under another version.
    pub fn under(&self, version: Version) -> Asked {
        Asked { version: version.number(), ..self.clone() }
    }

    /// The version that a sheet is held beside: the other one. The system's rows need no rules, and a text without policies has no version.
    pub fn other_version(&self) -> Option<Version> {
        let has_version =
            !self.request().is_of_system() && policies_of(&self.rules).map_or(false, |all| !all.is_empty());
        let other = match self.known_version() {
            Version::One => Version::Two,
            Version::Two => Version::One,
        };
        Some(other).filter(|_| has_version)
    }

    /// Whether it is a bag, which has no rows.
    pub fn is_bag(&self) -> bool {
        self.form.columns.is_none()
    }

    /// The three lines of request.txt.
    pub fn request_bytes(&self) -> Vec<u8> {
        lines_of(&self.request)
    }

    /// The one request that is asked about: the one of this number, from 1, or the only one.
    pub fn choose(&mut self, number: Option<usize>) -> Done<()> {
        let many = self.requests.len();
        match number {
            None if many > 1 => not_asked(format!(
                "{} has {} requests: --request 1 to {} takes one of them, ./desk tally {} counts the rows of all",
                self.name, many, many, self.name
            )),
            Some(number) if !(1..=many).contains(&number) => not_asked(format!(
                "there is no request {}: {} has {}",
                number,
                self.name,
                count_of(many, "request", "requests")
            )),
            _ => {
                self.request = self.requests[number.unwrap_or(1) - 1].clone();
                Ok(())
            }
        }
    }

    /// The bytes of requests.bin.
    pub fn requests_bytes(&self) -> Vec<u8> {
        bytes_of_requests(&self.requests)
    }

    /// The question as the desk reads it; a bag is a question without columns.
    pub fn question(&self) -> Done<Question> {
        match read_question(&self.question_bytes()) {
            Some(question) => Ok(question),
            None => not_asked(format!("{} is no question", self.name)),
        }
    }

    pub fn question_bytes(&self) -> Vec<u8> {
        let columns = Some(self.form.columns.clone().unwrap_or_default());
        Form { columns, ..self.form.clone() }.bytes()
    }

    /// The case of a row; nothing where its attributes are more than a bag can hold.
    pub fn case_of(&self, choices: &[usize]) -> Option<Case> {
        let mut sections = self.form.sections.clone();
        for (column, choice) in self.form.columns.iter().flatten().zip(choices) {
            match &column.candidates[*choice] {
                Some(value) => sections[column.root].insert(column.path.clone(), value.clone()),
                None => sections[column.root].remove(&column.path),
            };
        }
        let bag = Form { sections, columns: None, ..Form::default() }.bytes();
        definitions::bags::read_bag(&bag)?;
        Some(Case { request: self.request.clone(), bag })
    }

    /// All values that an attribute has in some row, and whether it is absent in some.
    pub fn values(&self, root: usize, path: &[u8]) -> (Vec<&Content>, bool) {
        for column in self.form.columns.iter().flatten() {
            if column.root == root && column.path == path {
                return (column.candidates.iter().flatten().collect(), column.candidates.contains(&None));
            }
        }
        match self.form.sections[root].get(path) {
            Some(value) => (vec![value], false),
            None => (Vec::new(), true),
        }
    }
}

/// A file's name without its folder.
pub fn file_name(name: &str) -> String {
    Path::new(name).file_name().map_or_else(|| name.to_string(), |name| name.to_string_lossy().into_owned())
}

/// Where the files are.
struct Places {
    rules: String,
    text: String,
    bytes: String,
    request: String,
    requests: String,
}

/// What a folder or a question's file asks under version 1, with other rules if these are named. With `missing_is_empty` a file that a folder has not
/// is taken as empty, with a warning.
pub fn read_asked(name: &str, rules: Option<&str>, missing_is_empty: bool) -> Done<Asked> {
    if !Path::new(name).exists() {
        return not_asked(format!("there is no folder or file {}", name));
    }
    let places = places_of(name, rules);
    let mut missing = Missing { is_empty: missing_is_empty, warnings: Vec::new() };
    let rules = missing.read(&places.rules, "the rules are read from it, or from the file after --rules")?;
    let (name, file, form) = match read_question_text(&places)? {
        Some((file, form)) => (places.text.clone(), file, form),
        None => read_question_bytes(&places, &mut missing)?,
    };
    let (requests, request_file) = match requests_of_text(&name, &form, &places)? {
        Some(requests) => (requests, None),
        None => {
            let bytes = read_request_file(&places, &mut missing)?;
            (vec![parts_of(&bytes)], Some((places.request.clone(), bytes)))
        }
    };
    let is_text = name == places.text;
    let asked = Asked {
        rules_name: places.rules,
        rules,
        version: Version::One.number(),
        sent: if is_text { form.bytes() } else { file.clone() },
        title: if is_text { first_comment(&file) } else { None },
        name,
        file,
        form,
        request: requests[0].clone(),
        requests,
        request_file,
        warnings: missing.warnings,
    };
    check_one_line(&asked)?;
    Ok(asked)
}

/// The file of the request, where the question's text says none.
fn read_request_file(places: &Places, missing: &mut Missing) -> Done<Vec<u8>> {
    let what = format!("say subject = \"..\", action = \"..\" and resource = \"..\" in {}", places.text);
    let bytes = missing.read(&places.request, &what)?;
    missing.warnings.extend(doubts_of_request_file(&places.request, &bytes));
    Ok(bytes)
}

/// Whether a missing file is taken as empty, and the warnings of those that were.
struct Missing {
    is_empty: bool,
    warnings: Vec<String>,
}

impl Missing {
    /// A file that is needed, or why it is missing and what to do.
    fn read(&mut self, name: &str, what: &str) -> Done<Vec<u8>> {
        match read_if_there(name)? {
            Some(bytes) => Ok(bytes),
            None if self.is_empty => {
                self.warnings.push(format!("there is no {}: it is taken as empty", name));
                Ok(Vec::new())
            }
            None => not_asked(format!("there is no {}: {}", name, what)),
        }
    }
}

/// The question's bytes where there is no text. Bytes that are no question are for the sheet program to refuse, if it may.
fn read_question_bytes(places: &Places, missing: &mut Missing) -> Done<(String, Vec<u8>, Form)> {
    let what = format!("write the question as text into {} (docs/QUESTIONS.md)", places.text);
    let file = missing.read(&places.bytes, &what)?;
    match read_bytes(&file) {
        Ok(form) => Ok((places.bytes.clone(), file, form)),
        Err(_) if missing.is_empty => Ok((places.bytes.clone(), file, Form::default())),
        Err(bad) => not_asked(format!("{}: byte {}: {}", places.bytes, bad.at, bad.what)),
    }
}

fn places_of(name: &str, rules: Option<&str>) -> Places {
    let path = Path::new(name);
    let is_file = !path.is_dir();
    let folder = if is_file { path.parent().unwrap_or(path) } else { path };
    let beside = |file: &str| folder.join(file).to_string_lossy().into_owned();
    let stem = path.file_stem().map_or(String::new(), |stem| stem.to_string_lossy().into_owned());
    let named = |ending: &str| beside(&format!("{}.{}", stem, ending));
    let (text, bytes, request, requests) = if !is_file || stem == "question" {
        (beside(QUESTION), beside(QUESTION_BYTES), beside(REQUEST), beside(REQUESTS))
    } else {
        (name.to_string(), named("bin"), named("request"), named("requests"))
    };
    Places { rules: rules.map_or_else(|| beside(RULES), str::to_string), text, bytes, request, requests }
}

/// The question's text and what it says, if it is there. Bytes that were made of it must be what it says.
fn read_question_text(places: &Places) -> Done<Option<(Vec<u8>, Form)>> {
    let file = match read_if_there(&places.text)? {
        Some(file) => file,
        None => return Ok(None),
    };
    let form = match read_text(&file) {
        Ok(form) => form,
        Err(wrong) => return not_asked(wrong_in_text(&places.text, &file, &wrong)),
    };
    if let Some(bytes) = read_if_there(&places.bytes)? {
        if bytes != form.bytes() {
            return not_asked(format!(
                "{} is not what {} says: ./desk write {} makes it anew, or remove it",
                places.bytes, places.text, places.text
            ));
        }
    }
    Ok(Some((file, form)))
}

/// The requests that the text says, if it says any. Files that were made of it must be what it says.
fn requests_of_text(name: &str, form: &Form, places: &Places) -> Done<Option<Vec<Parts>>> {
    let requests = match said_requests(name, form)? {
        Some(requests) => requests,
        None => return Ok(None),
    };
    let anew = format!("./desk write {} makes it anew, or remove it", name);
    if let Some(bytes) = read_if_there(&places.request)? {
        if requests.len() > 1 {
            return not_asked(format!(
                "{} has one request, and {} has {}: remove it",
                places.request,
                name,
                requests.len()
            ));
        }
        let other = parts_of(&bytes);
        for ((part, said), other) in PARTS.iter().zip(&requests[0]).zip(&other) {
            if said != other {
                let (other, said) = (quoted(other), quoted(said));
                return not_asked(format!(
                    "{} has the {} {}, and {} has {}: {}",
                    places.request, part, other, name, said, anew
                ));
            }
        }
    }
    match read_if_there(&places.requests)? {
        Some(bytes) if bytes != bytes_of_requests(&requests) => {
            not_asked(format!("{} is not what {} says: {}", places.requests, name, anew))
        }
        _ => Ok(Some(requests)),
    }
}

/// The requests of a form: those that lines `request` begin, or else the one of its parts; nothing if it says none.
fn said_requests(name: &str, form: &Form) -> Done<Option<Vec<Parts>>> {
    if !form.requests.is_empty() {
        return Ok(Some(form.requests.clone()));
    }
    if form.request.iter().all(Option::is_none) {
        return Ok(None);
    }
    match whole_request(&form.request, SaidParts::default()) {
        Ok(request) => Ok(Some(vec![request])),
        Err(part) => not_asked(format!("{} says no {}: a line {} = \"..\" is missing", name, part, part)),
    }
}

/// The bytes of requests.bin. A part has at most 255 bytes there; one that is cut so is refused like the whole.
pub fn bytes_of_requests(requests: &[Parts]) -> Vec<u8> {
    let cut = |part: &Vec<u8>| part[..part.len().min(255)].to_vec();
    let cut: Vec<Parts> = requests.iter().map(|[a, b, c]| [cut(a), cut(b), cut(c)]).collect();
    let lent: Vec<Request> =
        cut.iter().map(|[subject, action, resource]| Request { subject, action, resource }).collect();
    requests_file(&lent)
}

/// The parts of a request file, as the sheet program cuts it.
fn parts_of(bytes: &[u8]) -> [Vec<u8>; 3] {
    let Request { subject, action, resource } = read_request(bytes);
    [subject, action, resource].map(<[u8]>::to_vec)
}

/// What the sheet program does not say of a request's file: more lines than three.
fn doubts_of_request_file(name: &str, bytes: &[u8]) -> Vec<String> {
    let more = bytes.split(|byte| *byte == b'\n').skip(3).any(|line| !line.is_empty());
    if more {
        vec![format!("{} has more than three lines: only subject, action and resource are read", name)]
    } else {
        Vec::new()
    }
}

/// The sheet program reads each part up to a line feed.
fn check_one_line(asked: &Asked) -> Done<()> {
    for (part, value) in asked.requests.iter().flat_map(|request| PARTS.iter().zip(request)) {
        if value.contains(&b'\n') {
            return not_asked(format!("the {} has a line feed in it: {}; it must be one line", part, quoted(value)));
        }
    }
    Ok(())
}

/// Write the bytes of a question's text beside it, and its request, or its requests where it has several.
pub fn write_made(name: &str) -> Done<String> {
    let places = places_of(name, None);
    let file = read_file(&places.text)?;
    let form = read_text(&file).or_else(|wrong| not_asked(wrong_in_text(&places.text, &file, &wrong)))?;
    let requests = said_requests(&places.text, &form)?.unwrap_or_default();
    let mut said = put(&places.bytes, &form.bytes())?;
    match &requests[..] {
        [request] => said += &put(&places.request, &lines_of(request))?,
        _ => {}
    }
    if requests.len() > 1 || read_if_there(&places.requests)?.is_some() {
        said += &put(&places.requests, &bytes_of_requests(&requests))?;
    }
    Ok(said)
}

/// The three lines of request.txt.
fn lines_of(request: &Parts) -> Vec<u8> {
    request.iter().flat_map(|part| [&part[..], b"\n"].concat()).collect()
}

fn put(name: &str, bytes: &[u8]) -> Done<String> {
    match fs::write(name, bytes) {
        Ok(()) => Ok(format!("wrote {}\n", name)),
        Err(error) => not_asked(format!("{} cannot be written: {}", name, error)),
    }
}

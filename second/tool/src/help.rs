//! The help of each command.

/// A command: its name, its usage after the name, one line, and the rest of its help.
pub struct Help {
    pub name: &'static str,
    pub usage: &'static str,
    pub line: &'static str,
    pub more: &'static str,
}

pub const COMMANDS: [Help; 10] = [
    Help {
        name: "sheet",
        usage: "WHERE [--rules FILE] [--version N] [--request N] [--table | --html FILE] [--forbidden]",
        line: "which rows of a question are allowed",
        more: "\
WHERE is a folder with policy.txt and question.txt, or a question's text file with policy.txt beside it.
  --rules FILE   take the rules from FILE
  --version N    compile the rules under version N, 1 or 2; without it under version 1
  --request N    of a question with several requests, the sheet of request N, from 1
  --table        a table with the attributes' values, the other policies that applied, the tally and holes, instead of plain lines
  --html FILE    a page for paper, written to FILE: with the tally, the rules, the day, the sums of the files and a line to sign
  --forbidden    with --table or --html, the rows that are not allowed too, and what decides them
Table and page also say which holes of version 1 version 2 closes, which other rows it takes away, and which it opens.",
    },
    Help {
        name: "tally",
        usage: "WHERE [--rules FILE] [--version N] [--lines | --html FILE]",
        line: "how many rows have each outcome, and how many each policy decides, for one to eight requests",
        more: "\
WHERE is a folder with policy.txt and question.txt, or a question's text file with policy.txt beside it. The question has one
request, or several after lines request:
    request
    subject = \"person:K7\"
    action = \"teach\"
    resource = \"shaft:N3\"
What stands before the first request holds for all. Each request is counted over all rows, and the sums are over the requests.
Below them stands in how many rows a policy is satisfied though another decides: the tool counts this, and it is not proved.
  --rules FILE   take the rules from FILE
  --version N    compile the rules under version N, 1 or 2; without it under version 1
  --lines        plain lines: rows N; for each request, and for the sums: outcome 1 to 4 and policy 1 to the last, each with its rows
  --html FILE    a page for paper, written to FILE",
    },
    Help {
        name: "check",
        usage: "RULES [--version N]",
        line: "whether a rule text compiles; if not, where and what is expected",
        more: "\
RULES is a rule text, or a folder with policy.txt. No question is needed. N is the version of the rules, 1 or 2; without it
version 1. A text compiles under both or under neither.",
    },
    Help {
        name: "decide",
        usage: "WHERE [--rules FILE] [--version N] [--request N]",
        line: "what is decided of one request over a bag",
        more: "\
WHERE is a text file that begins with bag, says subject, action and resource, and has attributes; or a folder whose question
has no columns. The rules are policy.txt beside it, or FILE. Said are the outcome, the policy that decides, the other policies
that are satisfied, and which forbid an absence disarms.
  --version N    compile the rules under version N, 1 or 2; without it under version 1
  --request N    of a question with several requests, request N, from 1",
    },
    Help {
        name: "explain",
        usage: "WHERE [--row N] [--rules FILE] [--version N] [--request N]",
        line: "why a row, or one request, is decided as it is",
        more: "\
Each policy whose target matches, with the parts of its condition, the values met, what is absent, and which forbid an
absence disarms; then what is decided, and which other policies are satisfied.
  --row N        a row's number as the sheet has it, from 0; a question without columns, or a bag, needs none
  --rules FILE   take the rules from FILE
  --version N    compile the rules under version N, 1 or 2; without it under version 1. Under version 2 it is also said which
                 absent attribute is met and makes a policy unsatisfied, and which parts are not met
  --request N    of a question with several requests, request N, from 1",
    },
    Help {
        name: "test",
        usage: "TESTS.. [--rules FILE] [--version N]",
        line: "requests with expected outcomes; exit status 1 if one is not met",
        more: "\
TESTS are text files: attributes, subject, action and resource that hold for all tests, and then tests:
    test \"nobody noted who hired K7\"
    principal.hired = absent
    expect forbidden by 2
expect has allowed, forbidden, not permitted, system, or refused and a number; after the first two maybe by and a policy's
number. The rules are policy.txt beside the tests, or FILE; N is their version, 1 or 2, and without it version 1.",
    },
    Help {
        name: "diff",
        usage: "BEFORE AFTER WHERE [--version N | --versions M N] [--request N]",
        line: "two rule texts, one question: rows opened, closed, decided by another policy",
        more: "\
BEFORE and AFTER are rule texts, WHERE is a folder with question.txt or a question's text file.
  --version N      compile both under version N, 1 or 2; without it under version 1
  --versions M N   compile BEFORE under version M and AFTER under version N: with one text twice, what the version changes
  --request N      of a question with several requests, request N, from 1",
    },
    Help {
        name: "write",
        usage: "WHERE",
        line: "make question.bin and request.txt of a question's text",
        more: "\
They are what the sheet program and a program in C read. Made of QUESTION.txt they are QUESTION.bin and QUESTION.request. For
several requests it makes requests.bin, or QUESTION.requests, in place of the request: their number in one byte, and then
subject, action and resource of each, each behind a byte with its length.",
    },
    Help {
        name: "read",
        usage: "BYTES",
        line: "print the question or bag in a file of bytes as text",
        more: "Writing that text gives the same bytes again.",
    },
    Help {
        name: "lock",
        usage: "WHERE [--room N]",
        line: "the permit of a lock in the caretaker's short form, ready for a rule text",
        more: "\
WHERE is a text file, or a folder with lock.txt: the vocabulary's words, and actions, a resource and a lock, or several:
    word firm = principal.firm, equality
    word flag = principal.flags, membership
    word grade = principal.grade, number
    actions = \"teach\", \"read\"
    resource = \"shaft:A\"
    lock = firm:own & flag:taught & grade>=3
Each lock is printed as a permit, one a line; if one is refused, none is. A permit needs no version: it means the same under
both. docs/LOCKS.md tells more.
  --room N   the bytes that the permit may have; without it, as many as the longest permit has",
    },
];

const STATUS: &str =
    "Exit status: 0 answered; 1 refused, or a test failed; 2 nothing was asked: the words, a file or a text is wrong.";

/// The help of the whole tool.
pub fn overview() -> String {
    let mut text = "usage: ./desk COMMAND ..\n\n".to_string();
    for command in &COMMANDS {
        text += &format!("  {:<8} {}\n", command.name, command.line);
    }
    text + &format!(
        "\n./desk COMMAND --help tells more. docs/QUESTIONS.md has the form of questions, bags and tests, docs/LOCKS.md that of locks.\n\
         Rules are compiled under version 1, or with --version 2 under version 2: docs/RULES.md, 'Absence'.\n{}\n",
        STATUS
    )
}

/// The help of one command.
pub fn help_of(command: &Help) -> String {
    format!("usage: ./desk {} {}\n\n{}.\n{}\n\n{}\n", command.name, command.usage, command.line, command.more, STATUS)
}

pub fn command_named(name: &str) -> Option<&'static Help> {
    COMMANDS.iter().find(|command| command.name == name)
}

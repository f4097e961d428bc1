#!/usr/bin/env bash
# Tries the desk for people as people use it, answered by the proved programs: right questions, mistakes and their messages, two at once. After
# rt ci, or tools/program.sh of sheet, ask and caretaker, from anywhere:
#
#   second/try.sh
#
# It takes some seconds; its last line is 'N passed, 0 failed'. DESK_PROVED=second/standin.sh tries it without the proved programs.
set -euo pipefail

root=$(cd "$(dirname "$(readlink -f "${BASH_SOURCE[0]}")")/.." && pwd -P)
work=$(mktemp -d)
trap 'rm -rf "$work"' EXIT
passed=0 failed=0

"$root/desk" --help >"$work/help"
desk=${CARGO_TARGET_DIR:-$root/second/target}/release/desk
DESK_PROVED=$(readlink -f "${DESK_PROVED:-$root/second/proved.sh}")
DESK_WORK=$work/desk
export DESK_PROVED DESK_WORK
mkdir "$DESK_WORK"

# tried STATUS WORDS COMMAND..: the command ends with this status and says these words.
tried() {
    local status=$1 words=$2 got=0
    shift 2
    "$@" >"$work/said" 2>&1 || got=$?
    if [ "$got" = "$status" ] && [[ $(tr '\n' ' ' <"$work/said") == *"$words"* ]]; then
        passed=$((passed + 1))
    else
        failed=$((failed + 1))
        echo "FAIL: $*: expected status $status and '$words'; status $got and:"
        cat "$work/said"
    fi
}

# asked RULES QUESTION: a folder that asks so.
asked() {
    rm -rf "$work/f"
    mkdir "$work/f"
    printf '%s' "$1" >"$work/f/policy.txt"
    printf '%s\n' "$2" >"$work/f/question.txt"
}

rules='permit(principal is person, action, resource is shaft)
  when { principal.grade >= 3 };
forbid(principal, action in ["teach"], resource)
  when { principal.hired != "own" };
'
request='subject = "person:K7"
action = "teach"
resource = "shaft:A"
'
columns='column principal.grade = absent | 3 | 2.5
column principal.hired = absent | "own" | "loan"'
any='permit(principal, action, resource)'

# What is right.
tried 0 'usage: ./desk COMMAND' "$desk" --help
tried 0 'usage: ./desk sheet WHERE' "$desk" sheet --help
tried 0 'rows 9 3 1 1 1 4 1 1 1 allowed 2' "$desk" sheet "$root/examples/worked"
tried 0 'policy 2 in line 3 would forbid' "$desk" sheet "$root/examples/worked" --table
tried 0 'Rows that are not allowed' "$desk" sheet "$root/examples/worked" --table --forbidden
tried 0 '162 rows, 32 are allowed' "$desk" sheet "$root/examples/crew" --table
tried 0 '' "$desk" sheet "$root/examples/crew" --html "$work/page.html" --forbidden
tried 0 'looked through by' cat "$work/page.html"
tried 0 '32 policies, 17 permits and 15 forbids' "$desk" check "$root/examples/crew"
tried 0 '!! disarmed: it could forbid if principal.hired were there' "$desk" explain "$root/examples/worked" --row 3
tried 0 'Forbidden by policy 2 in line 3' "$desk" explain "$root/examples/worked" --row 5
tried 0 'Satisfied too, but not deciding: policy 1 in line 1 (permit).' "$desk" explain "$root/examples/worked" --row 5
tried 0 'No other policy is satisfied.' "$desk" explain "$root/examples/worked" --row 3
tried 0 'Not permitted: no policy is satisfied' "$desk" explain "$root/examples/worked" --row 0
tried 0 ', 0 failed' "$desk" test "$root/examples/worked/tests.txt"
tried 0 '1 closed, 0 decided by another policy, 8 as before' "$desk" diff "$root/examples/worked/policy.txt" "$root/examples/worked/closed.txt" "$root/examples/worked"
tried 0 'Allowed by policy 1 in line 1' "$desk" decide "$root/examples/worked/k7.txt"
tried 0 'usage: ./desk tally WHERE' "$desk" tally --help
tried 0 'rows 9 request 1 outcome 1 2 outcome 2 3 outcome 3 4 outcome 4 0 policy 1 2 policy 2 3 sums outcome 1 2 ' "$desk" tally "$root/examples/worked" --lines
tried 0 '      2          3              4       0 ' "$desk" tally "$root/examples/worked"
tried 0 '      2          3              4       0 ' "$desk" sheet "$root/examples/worked" --table
tried 0 'The rows of this sheet are those of request 2' "$desk" sheet "$root/examples/crew/shift" --request 2 --html /dev/stdout
tried 0 '' "$desk" tally "$root/examples/crew/shift" --html "$work/tally.html"
tried 0 '6 requests, each over 162 rows, by outcome and by the policy that decides.' cat "$work/tally.html"
"$desk" tally "$root/examples/crew/shift" >"$work/tally" || true
tried 0 '' cmp "$work/tally" "$root/examples/crew/shift/tally.txt"
"$desk" tally "$root/examples/crew/shift" --lines >"$work/counts" 2>/dev/null || true
tried 0 '' cmp "$work/counts" "$root/examples/crew/shift/counts.txt"

# Which other policies applied: every example's table as it is stored, with the column also, or the line that says there is none.
for folder in worked crew crew/night crew/records south versions; do
    "$desk" sheet "$root/examples/$folder" --table >"$work/table" 2>/dev/null || true
    tried 0 '' cmp "$work/table" "$root/examples/$folder/table.txt"
done
tried 0 'In none of these rows is another policy satisfied.' cat "$root/examples/worked/table.txt"
tried 0 'also: other policies that are satisfied in the row, though they do not decide it.' cat "$root/examples/crew/table.txt"
tried 0 '<th class="also">also</th>' "$desk" sheet "$root/examples/crew" --html /dev/stdout
tried 0 'In how many rows a policy is satisfied though another decides (counted by the tool):' "$desk" tally "$root/examples/worked"
# 64 policies: for a person the first and the last are satisfied, for a tool all, and one of these may forbid; the system has no mark.
ends="$any;$(printf 'permit(principal is tool, action, resource);%.0s' {2..63})$any;"
asked "$ends" "$request"
tried 0 'rows 1 0 1 1 9223372036854775809 allowed 1' "$desk" sheet "$work/f"
tried 0 'Satisfied too, but not deciding: policy 64 in line 1 (permit).' "$desk" decide "$work/f"
asked "$ends" "${request/person:K7/tool:T1}"
tried 0 'rows 1 0 1 1 18446744073709551615 allowed 1' "$desk" sheet "$work/f"
tried 0 '2 to 64' "$desk" sheet "$work/f" --table
asked "$ends" "${request/person:K7/system}"
tried 0 'rows 1 0 4 0 0 allowed 1' "$desk" sheet "$work/f"
for forbid in 1 64; do
    if [ "$forbid" = 1 ]; then text=${ends/permit/forbid}; else text="${ends%"$any;"}${any/permit/forbid};"; fi
    asked "$text" "$request"
    tried 0 'rows 1 allowed 0' "$desk" sheet "$work/f"
    tried 0 "Forbidden by policy $forbid in line 1" "$desk" decide "$work/f"
    tried 0 "Satisfied too, but not deciding: policy $((65 - forbid)) in line 1 (permit)." "$desk" explain "$work/f"
done

# Both versions of the rules: the same question under each, which holes version 2 closes, and which rows it opens, told loudly.
versions=$root/examples/versions
"$desk" sheet "$versions" >"$work/sheet" 2>/dev/null || true
tried 0 '' cmp "$work/sheet" "$versions/expected.txt"
"$desk" sheet "$versions" --version 1 >"$work/sheet" 2>/dev/null || true
tried 0 '' cmp "$work/sheet" "$versions/expected.txt"
"$desk" sheet "$versions" --version 2 >"$work/sheet" 2>/dev/null || true
tried 0 '' cmp "$work/sheet" "$versions/expected2.txt"
"$desk" sheet "$versions" --version 2 --table >"$work/table" 2>/dev/null || true
tried 0 '' cmp "$work/table" "$versions/table2.txt"
SOURCE_DATE_EPOCH=1794700800 "$desk" sheet "$versions" --html "$work/page.html" >/dev/null 2>&1 || true
tried 0 '' cmp "$work/page.html" "$versions/page.html"
tried 0 'desk: these lines are under version 2' "$desk" sheet "$versions" --version 2
tried 0 'Version 2 closes 2 of these 3 holes: rows 3, 5.' "$desk" sheet "$versions" --table
tried 0 '!!! VERSION 2 OPENS 2 ROWS that version 1 forbids' "$desk" sheet "$versions" --table
tried 0 'under version 2 it meets env.occupied,     which is absent, and is unsatisfied' "$desk" sheet "$versions" --table
tried 0 'principal.until = 20600; version 2 closes 1 of them' "$desk" sheet "$versions" --table
tried 0 '<div class="opened"><p><b>!!! VERSION 2 OPENS 2 ROWS' "$desk" sheet "$versions" --html /dev/stdout
tried 0 '<b>Under version 2 of the rules.</b>' "$desk" sheet "$versions" --version 2 --html /dev/stdout
tried 0 'forbidden      YES' "$desk" sheet "$versions" --table --forbidden
tried 0 'Version 2 does not close this hole.' "$desk" sheet "$root/examples/worked" --table
tried 0 'VERSION 2 OPENS 3 ROWS' "$desk" sheet "$root/examples/crew/records" --table
tried 0 'outcome 1 4 outcome 2 21 outcome 3 2 ' "$desk" tally "$versions" --lines
tried 0 'outcome 1 4 outcome 2 15 outcome 3 8 ' "$desk" tally "$versions" --lines --version 2
tried 0 'Under version 2 of the rules.' "$desk" tally "$versions" --version 2
tried 0 '2 opened, 2 closed, 0 decided by another policy, 23 as before' "$desk" diff "$versions/policy.txt" "$versions/policy.txt" "$versions" --versions 1 2
tried 0 'under version 2 policy 2 meets env.occupied, which is absent, and is unsatisfied' "$desk" diff "$versions/policy.txt" "$versions/policy.txt" "$versions" --versions 1 2
tried 0 '0 opened, 0 closed, 0 decided by another policy, 27 as before' "$desk" diff "$versions/both.txt" "$versions/both.txt" "$versions" --versions 1 2
tried 0 '0 opened, 3 closed, 1 decided by another policy' "$desk" diff "$versions/policy.txt" "$versions/both.txt" "$versions" --version 2
tried 0 'Forbidden by policy 2 in line 3' "$desk" explain "$versions" --row 9
tried 0 'env.occupied is absent, and it is met: under version 2 that makes the whole policy unsatisfied' "$desk" explain "$versions" --row 9 --version 2
tried 0 'Allowed by policy 1 in line 1' "$desk" explain "$versions" --row 9 --version 2
tried 0 '7 tests, 0 failed' "$desk" test "$versions/tests.txt" --rules "$versions/both.txt"
tried 0 '7 tests under version 2, 0 failed' "$desk" test "$versions/tests.txt" --rules "$versions/both.txt" --version 2
tried 0 '11 tests under version 2, 0 failed' "$desk" test "$root/examples/lock/tests.txt" --rules "$root/examples/lock/permits.txt" --version 2
tried 0 'policy.txt under version 2: 32 policies, 17 permits and 15 forbids' "$desk" check "$root/examples/crew" --version 2
# Case I under version 2: unsatisfied both ways. What is not met does nothing, and has may meet what is absent.
while IFS='~' read -r condition one two; do
    asked "$any when { $condition };" "${request}column principal.a = absent"
    tried 0 "rows 1 $one" "$desk" sheet "$work/f"
    tried 0 "rows 1 $two" "$desk" sheet "$work/f" --version 2
done <<'CASES'
principal.a != "x"~allowed 0~allowed 0
!(principal.a != "x")~0 1 1 1 allowed 1~allowed 0
true || principal.a == 1~0 1 1 1 allowed 1~0 1 1 1 allowed 1
principal.a == 1 || true~0 1 1 1 allowed 1~allowed 0
!(false && principal.a == 1)~0 1 1 1 allowed 1~0 1 1 1 allowed 1
!(principal.a == 1 && false)~0 1 1 1 allowed 1~allowed 0
if true then true else principal.a == 1~0 1 1 1 allowed 1~0 1 1 1 allowed 1
if principal.a == 1 then false else true~0 1 1 1 allowed 1~allowed 0
!(principal has a)~0 1 1 1 allowed 1~0 1 1 1 allowed 1
!(1 in principal.a)~0 1 1 1 allowed 1~allowed 0
!(action.name == 1)~0 1 1 1 allowed 1~0 1 1 1 allowed 1
CASES
# A version that is none is refused before all else; ask reads one digit, and any other word is none.
for version in 0 3 257 18446744073709551615; do
    tried 1 "Refused, number 30. There is no version $version of the rules: there are versions 1 and 2." "$desk" check "$versions" --version "$version"
    tried 1 'refused 30 0 0 0' "$desk" sheet "$versions" --version "$version"
    tried 1 'Refused, number 30.' "$desk" tally "$versions" --version "$version"
    tried 1 'Refused, number 30.' "$desk" explain "$versions" --row 0 --version "$version"
    tried 1 'Refused, number 30.' "$desk" test "$versions/tests.txt" --version "$version"
    tried 1 'Refused, number 30.' "$desk" diff "$versions/policy.txt" "$versions/policy.txt" "$versions" --versions 1 "$version"
done
tried 1 'Refused, number 30.' "$desk" decide "$root/examples/worked/k7.txt" --version 3
printf '%8193s' '' >"$work/long.txt"
tried 1 'Refused, number 30.' "$desk" check "$work/long.txt" --version 3
tried 1 'Refused, number 1.' "$desk" check "$work/long.txt" --version 2
tried 2 '--version needs the number of a version, 1 or 2' "$desk" sheet "$versions" --version two
tried 2 '--versions needs two numbers' "$desk" diff "$versions/policy.txt" "$versions/policy.txt" "$versions" --versions 1
tried 2 'unknown option --version' "$desk" lock "$root/examples/lock" --version 2
for word in check decide tally sheet; do
    for version in 0 3 9 02 22 x ''; do
        tried 0 'refused 30 0 0 0' env -C "$versions" "$DESK_PROVED" ask "$word" "$version"
    done
done
tried 0 'compiled 3 ' env -C "$versions" "$DESK_PROVED" ask check 1
tried 0 'compiled 3 ' env -C "$versions" "$DESK_PROVED" ask check 2
for version in 1 2; do
    env -C "$versions" "$DESK_PROVED" ask sheet "$version" >"$work/sheet" 2>/dev/null || true
    tried 0 '' cmp "$work/sheet" "$versions/expected${version/1/}.txt"
done

# The words of the command.
tried 2 'which command?' "$desk"
tried 2 'there is no command shet' "$desk" shet
tried 2 'a name is missing' "$desk" sheet
tried 2 'unknown option --tabel' "$desk" sheet "$root/examples/worked" --tabel
tried 2 'there is no row 9' "$desk" explain "$root/examples/worked" --row 9
tried 2 'has 9 rows: ./desk sheet shows them all' "$desk" decide "$root/examples/worked"
tried 2 'has 6 requests: --request 1 to 6 takes one of them, ./desk tally' "$desk" sheet "$root/examples/crew/shift"
tried 2 'there is no request 7' "$desk" explain "$root/examples/crew/shift" --request 7

# Files that are missing, no files, or stale.
asked "$rules" "$request$columns"
tried 0 'allowed 2' "$desk" sheet "$work/f"
rm "$work/f/policy.txt"
tried 2 'policy.txt: the rules are read from it' "$desk" sheet "$work/f"
mkdir "$work/f/policy.txt"
tried 2 'policy.txt is a folder; a file is needed here' "$desk" sheet "$work/f"
asked "$rules" "$columns"
tried 2 'request.txt: say subject = ".."' "$desk" sheet "$work/f"
printf 'person:K7\r\nteach\r\nshaft:A\r\nand more\r\n' >"$work/f/request.txt"
tried 0 'the action ends with a carriage return, "teach\r": save request.txt with plain line feeds' "$desk" sheet "$work/f"
tried 0 'has more than three lines: only subject, action and resource are read' "$desk" sheet "$work/f"
tried 0 'Warning: the action ends with a carriage return' "$desk" sheet "$work/f" --table
printf 'person:K7\nteach \nshaft:A\n' >"$work/f/request.txt"
tried 0 'the action begins or ends with a blank, "teach "' "$desk" sheet "$work/f"
asked "$rules" "$request$columns"
printf 'person:K8\nteach\nshaft:A\n' >"$work/f/request.txt"
tried 2 'request.txt has the subject "person:K8"' "$desk" sheet "$work/f"
tried 0 'wrote' "$desk" write "$work/f"
tried 0 'allowed 2' "$desk" sheet "$work/f"
printf 'column env.a = 1\n%s' "$request" >"$work/f/question.txt"
tried 2 'question.bin is not what' "$desk" sheet "$work/f"
rm "$work/f/question.txt"
tried 0 'allowed 2' "$desk" sheet "$work/f"
rm "$work/f/request.txt"
tried 1 'request.txt: it is taken as empty' "$desk" sheet "$work/f" --missing-is-empty
asked "$rules" "${request}principal.grade: 3"
tried 2 'question.txt:4:16: expected = and a value after the attribute' "$desk" sheet "$work/f"
asked "$rules" "${request}principal.name = \"Süd\" x"
tried 2 'question.txt:4:24: ' "$desk" sheet "$work/f"

# What was hardly meant.
while IFS='|' read -r old new words; do
    asked "$rules" "$(printf '%s%s' "$request" "$columns" | sed "s/$old/$new/")"
    tried 0 "$words" "$desk" sheet "$work/f"
done <<'CASES'
"teach"|"teech"|no policy names the action "teech": did you mean teach?
person:K7|tool:1|no permit's target matches this request, so nothing can be allowed
principal.grade|principal.grad|no policy asks for the column principal.grad, so it changes nothing: did you mean principal.grade?
principal.grade|principal.grad|policy 1 asks for principal.grade, which is given nowhere: it is absent in every row
absent . 3 . 2.5|"3"|principal.grade is never a number in this question: the comparison is always false
"own" . "loan"|true|principal.hired is never a string in this question: the comparison is always false
person:K7|system|the subject is system: the answer is yes without a look at the rules
CASES
tried 0 'policy 1 has resource.name like "S?d", but "S\xFCd" is not UTF-8: no pattern matches it' "$desk" sheet "$root/examples/south"
tried 0 'rows 5 1 1 1 1 2 1 1 1 allowed 2' "$desk" sheet "$root/examples/south"
asked "" "$request"
tried 0 'has no policy: nothing is allowed' "$desk" sheet "$work/f"
asked 'permit(principal, action, resource is record);' "$request"
tried 0 'no policy is about such a resource as "shaft:A"' "$desk" sheet "$work/f"
asked 'permit(principal is tool, action, resource);' "$request"
tried 0 'no policy is about such a subject as "person:K7"' "$desk" sheet "$work/f"

# Rules that are refused: the place, and what is expected there.
while IFS='|' read -r text words; do
    asked "$(printf '%b' "${text//ANY/$any}")" "$request$columns"
    tried 1 "$words" "$desk" check "$work/f"
    tried 1 "./desk check $work/f/policy.txt shows the place" "$desk" sheet "$work/f"
    tried 1 'Refused, number ' "$desk" test "$root/examples/worked/tests.txt" --rules "$work/f/policy.txt"
done <<'CASES'
ANY\nANY;|expected `when` or `;` after the policy that begins in line 1
ANY when { true }|The rules end inside a policy: expected `;`
# rules\nANY;|`#`: rule texts have no comments
ANY when { env.a == 'x' };|a string stands in straight double quotes
ANY when { env.a => 3 };|at least is written >=
ANY when { env.a = 3 };|equality is written ==
ANY when { env.if == 3 };|Reserved are: permit, forbid, when,
ANY when { env.a };|The attribute before this place stands alone
permit(principal is shaft, action, resource);|This is no type. Principals are person or tool
permit(principal is person:K7, action, resource);|A colon stands outside a string
permit(principal, action == "teach", resource);|expected `in` or `,` in the policy that begins in line 1
\0357\0273\0277ANY;|a byte order mark: save the file without one
ANY when { env.a == "x };|A string begins here and has no closing quote
ANY when { env.a == "S\0374d" };|This string is not UTF-8: its byte 2 is 0xFC, and no character. Save the rules as UTF-8
ANY when { env.a like "**\0303" };|Refused, number 17.
CASES
asked 'permit(principal, action, resource) when { resource.name == "Süd" && resource.name };' "$request"
tried 1 'line 1, column 84:' "$desk" check "$work/f"

# Requests that are refused.
asked "$rules" "${request/person:K7/dog:1}$columns"
tried 1 'The subject is not as it must be' "$desk" sheet "$work/f" --table
asked "$rules" "${request/shaft:A/shaft}"
tried 1 'Refused, number 23.' "$desk" decide "$work/f"

# Tallies that are refused: which request it is, and what to do. Eight requests are counted, nine are not.
asked "$rules" "$request$columns
request
request
subject = \"system\"
request
subject = \"dog:1\"
request
resource = \"shaft\""
tried 1 'Refused, number 21. Request 3 of 4 is refused, and with it the whole tally.' "$desk" tally "$work/f"
tried 1 'Mend it in' "$desk" tally "$work/f"
tried 1 'desk: refused: Request 3 of 4 is refused' "$desk" tally "$work/f" --lines
tried 1 '' "$desk" tally "$work/f" --html "$work/page.html"
tried 0 'Request 3 of 4 is refused' cat "$work/page.html"
tried 0 'allowed 2' "$desk" sheet "$work/f" --request 1
asked "$rules" "$request$columns$(printf '\nrequest%.0s' 1 2 3 4 5 6 7 8)"
tried 0 'sums outcome 1 16 outcome 2 24 outcome 3 32 outcome 4 0 policy 1 16 policy 2 24' "$desk" tally "$work/f" --lines
asked "$rules" "$request$columns$(printf '\nrequest%.0s' 1 2 3 4 5 6 7 8 9)"
tried 1 'Refused, number 27. A tally takes one to eight requests, and here are 9: put 1 of them into another question.' "$desk" tally "$work/f"
asked "$rules" "$request
request
principal.grade = 3"
tried 2 'question.txt:6:1: expected subject, action, resource or request: attributes and columns stand before the first request' "$desk" tally "$work/f"
asked "${rules/when/wen}" "$request$columns"
tried 1 'Refused, number 10.' "$desk" tally "$work/f"

# What ask prints where there is no request, too many, no question, or a part that is not wholly there.
# printed WORDS REQUESTS QUESTION: what ask tally prints in a folder with these bytes.
printed() {
    rm -rf "$work/g"
    mkdir "$work/g"
    printf '%s' "$rules" >"$work/g/policy.txt"
    printf '%b' "$2" >"$work/g/requests.bin"
    printf '%b' "$3" >"$work/g/question.bin"
    tried 0 "$1" env -C "$work/g" "$DESK_PROVED" ask tally
}
printed 'refused 27 0 0 0' '' '\0\0\0\0'
printed 'refused 27 0 0 0' '\0' ''
printed 'refused 27 0 0 0' '\011' ''
printed 'refused 24 0 0 0' '\01\06system' ''
printed 'rows 1 request 1 outcome 1 0 outcome 2 0 outcome 3 0 outcome 4 1 ' '\01\06system' '\0\0\0\0'
printed 'refused 21 0 0 0' '\01\011person:K' '\0\0\0\0'
printed 'refused 22 0 0 0' '\01\010person:K' '\0\0\0\0'
printed 'refused 23 0 0 0' '\01\010person:K\01a\06shaft:' '\0\0\0\0'
printed 'rows 1 request 1 outcome 1 0 outcome 2 0 outcome 3 1 outcome 4 0 ' '\01\010person:K\01a\07shaft:Aand more' '\0\0\0\0'

# Tests that fail, and tests that are none.
printf '%stest "own"\nprincipal.hired = "own"\nexpect forbidden\n' "$request" >"$work/tests.txt"
tried 1 'expected forbidden, but it is not permitted' "$desk" test "$work/tests.txt" --rules "$root/examples/worked/policy.txt"
printf 'test "own"\n' >"$work/tests.txt"
tried 2 'tests.txt:1:1: this test has no expect' "$desk" test "$work/tests.txt"

# Locks: the example's permits are as stored, and do what its tests say; each reason of 28, and 29.
"$desk" lock "$root/examples/lock" >"$work/permits" 2>&1 || true
tried 0 '' cmp "$work/permits" "$root/examples/lock/permits.txt"
tried 0 '3 policies, 3 permits and 0 forbids' "$desk" check "$work/permits"
tried 0 '11 tests, 0 failed' "$desk" test "$root/examples/lock/tests.txt" --rules "$work/permits"
tried 1 'Refused, number 29. The permit has 158 bytes, and its room 157.' "$desk" lock "$root/examples/lock" --room 157
tried 0 'usage: ./desk lock WHERE' "$desk" lock --help
tried 2 'there is no file' "$desk" lock "$work/no.txt"
tried 2 '--room needs a number of bytes' "$desk" lock "$root/examples/lock" --room many
head='word firm = principal.firm, equality
word flag = principal.flags, membership
word grade = principal.grade, number
actions = "teach"
resource = "shaft:A"
'
many() { local count=$1 line=$2 index; for ((index = 0; index < count; index++)); do printf '%b' "${line//N/$index}"; done; }
while IFS='~' read -r lines lock words; do
    [[ $lines != *MANY* ]] || lines=${lines/MANY/$(many 14 'word wN = principal.a, number\n')}
    printf '%s%b\nlock = %s\n' "$head" "$lines" "${lock/LONG/$(many 128 v)}" >"$work/lock.txt"
    tried 1 "Refused, number 28. $words" "$desk" lock "$work/lock.txt"
done <<'CASES'
~~The lock ends where a test must stand: a word of the vocabulary, which has firm, flag, grade.
~firm:own &~The lock ends where a test must stand
~!flag:taught~A lock has no !, | or brackets
~firm:own && grade>3~A test must begin here (tests are joined by a single &)
~level>3~The vocabulary has no word level; it has firm, flag, grade.
~grad>3~The vocabulary has no word grad; it has firm, flag, grade: did you mean grade?
~firm = own~Behind the word must stand : and a value.
~grade==3~Behind the word must stand >, >=, < or <= and a number.
~grade:3~This word is a number: behind it must stand
~firm>3~This word is compared by equality: behind it must stand
~flag>3~This word asks for membership in a list: behind it must stand
~firm:"own"~A value must stand here
~grade>=x~A number must stand here
~grade>=3x~Behind a test must stand & and another test, or the end of the lock.
~firm:LONG~This value has 128 bytes
~grade>1234567890123456~This number has 16 digits
word 1st = principal.a, number~firm:own~This is no word
word firm = principal.a, number~firm:own~The vocabulary has the word firm already.
word a = principal.in, number~firm:own~This is no path
MANY~firm:own~This is the 17th word
actions = "a\\x22"~firm:own~This is no string of rule texts
resource = "shaft:S\\xFCd"~firm:own~This string is not UTF-8, as strings of rule texts are
CASES

# Two at once, as they are called: each with a folder of its own, so that each proves what is missing, one after the other.
unset DESK_WORK
"$root/sheet" "$root/examples/worked" >"$work/one" 2>&1 &
"$root/desk" sheet "$root/examples/worked" >"$work/two" 2>&1 || true
wait
tried 0 'rows 9 3 1 1 1 4 1 1 1 allowed 2' cat "$work/one"
tried 0 'rows 9 3 1 1 1 4 1 1 1 allowed 2' cat "$work/two"
tried 2 'unknown option -x' "$root/sheet" "$root/examples/worked" -x

echo "$passed passed, $failed failed"
[ "$failed" = 0 ]

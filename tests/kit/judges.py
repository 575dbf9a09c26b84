#!/usr/bin/env python3
"""Tests what judges in lib/, on what is right and what is wrong: `judges.py`.

A judge that passes everything would have every other script pass. So each is given what it has to pass and what it has to find, as
texts that are written here: the count of checks, well-formed answers, the two rules by which a stream is cut, sections of a
transcript, the report of refused runs, and for what reason a wrong body is refused. Twin lists have to find a site that answers 503
by what somebody has sealed, within 1,000 pairs. The rules in Python have plain_cases.py. The last line is 'N checks, M wrong'.

Promise: none
"""
import contextlib
import io
import sys

from lib.checks import Checks, check, claim, verdict
from lib.frame import cut, request_of
from lib.plain_site import Site
from lib.refusal import report
from lib.sent import Answer, Malformed, answers_in, gives_up, next_answer, replayed, value_of
from lib.transcript import pairs, section
from lib.twin_lists import SEED, Lists, Run, are_lists
from lib.wrong_bodies import (CLAUSE, FALSE, GAVE_UP, LOST, MISFIT, NO_CODE, PANIC, PROOF, PROVED, Found, Function, both, class_of,
                              fitting, functions_of, lefts, owner, rows_of, without_answers)

OK = (b"HTTP/1.1 200 OK\r\ncontent-type: application/json\r\ncontent-length: 13\r\n\r\n"
      b'{"a":1,"b":2}')
MAY = b"HTTP/1.1 405 Method Not Allowed\r\ncontent-type: application/json\r\ncontent-length: 2\r\nallow: GET\r\n\r\n{}"
# Each turns an answer into what is none.
SPOILED = [
    (OK, b"200 OK", b"200 Okay"), (OK, b"200 OK", b"299 OK"), (OK, b"json", b"text"), (OK, b"length: 13", b"length: 013"),
    (OK, b"length: 13", b"length: 14"), (OK, b"length: 13", b"length: 12"), (OK, b'{"a":1,"b":2}', b'{"b":1,"a":2}'),
    (OK, b'{"a":1,"b":2}', b'{"a":1, "b":2'), (OK, b'"b":2}', b'"b":2]'), (OK, b"\r\n\r\n", b"\r\nx-more: 1\r\n\r\n"),
    (OK, b"\r\n\r\n", b"\r\nallow: GET\r\n\r\n"), (MAY, b"allow: GET\r\n", b""), (OK, b"\r\n", b"\n"),
]
STREAM = (b"\r\nGET /a HTTP/1.1\r\nhost: h\r\n\r\nPOST /b HTTP/1.1\r\nContent-Length: 3\r\n\r\nabc"
          b"POST /c HTTP/1.1\r\ncontent-length: 3\r\n\r\nab")
TRANSCRIPT = "> section one\n-- a comment\n> ask\nanswer\n\n> ask again\n> section two\n> ask\nother\n"

# What a check says of a function `f` of a crate `c`, and what a wrong body comes to by it.
BEGIN, ENSURES = "note: src/a.rt:7:5: it is not proved that ", "what the function ensures holds when it returns"
END = "fn c::a::f: no proof: expected answers in ./proofs/a/f/Answers.antt\nonly=1 proved=0\n"
VALUES, UP = "; the facts known there allow values at which this goal is false", "; `search` gave up at one of its limits"
FALSE_AT_2 = f"{BEGIN}{ENSURES} (`returns-2`){VALUES}\n"
ANSWER = "./proofs/a/f/Answers.antt:9:2: error: "
GONE = "has no field named `tail`\n"
CHECKED = [
    ("a goal that values make false", f"{BEGIN}{ENSURES} (`returns`){VALUES}\n{END}", CLAUSE, False),
    ("a goal that stays open", f"{BEGIN}{ENSURES} (`returns-clause-ok`)\n{END}", CLAUSE, False),
    ("what a callee asks for", f"{BEGIN}what `g` requires holds at this call (`g-requires`)\n{END}", CLAUSE, False),
    ("a sum that may not fit", f"{BEGIN}the sum fits its type (at `..=n`, `n + 1`) (`overflow_add-n`)\n{END}", PANIC, False),
    ("a search that gave up", f"{BEGIN}{ENSURES} (`returns`){UP}\n{END}", GAVE_UP, False),
    ("one that gave up, and one that is false", f"{BEGIN}{ENSURES} (`returns`){UP}\n{FALSE_AT_2}{END}", CLAUSE, False),
    ("the invariant of a loop", f"{BEGIN}the invariant of the loop holds (`loop-i-preserved`){VALUES}\n{END}", PROOF, False),
    ("an answer that names what is gone", f"{ANSWER}`returns`: {GONE}{END}", LOST, True),
    ("such an answer, and an open goal", f"{ANSWER}`returns`: {GONE}{BEGIN}{ENSURES} (`returns-2`)\n{END}", LOST, True),
    ("such an answer, and a goal that is false", f"{ANSWER}`returns`: {GONE}{FALSE_AT_2}{END}", CLAUSE, False),
    ("an answer that shows another thing", f"{ANSWER}`returns`: the two types differ\n{END}", CLAUSE, True),
    ("a code that is none", "src/a.rt:7:5: error[mismatched-types]: expected `u32`, found `bool`\n", NO_CODE, False),
    ("no verdict", "rattle: no verdict, since antt ran out of memory\n", GAVE_UP, False),
    ("a proof", "fn c::a::f: proved\nonly=1 proved=1\n", PROVED, False),
    ("a proof over a callee that has none", "fn c::a::f: no proof: it calls `c::g`, which is not proved\nonly=1 proved=0\n", PROVED, False),
    ("an end that may lie outside", f"note: src/a.rt:7:5: `search` found no proof (`slice_bounds-f-end`){VALUES}\n{END}", PANIC, False),
    ("another function's goal", f"{BEGIN}{ENSURES} (`returns`)\nfn c::g: no proof\nfn c::a::f: proved\nonly=2 proved=1\n", PROVED, False),
]
CODE = """\
impl<T: Read> Source for Reading<T> {
    // A line.
    fn take(&mut self, into: &mut [u8]) -> Result<usize, Failure>
        ensures some { IfOk result (λ n. n ≡ record {
            a = 1;
        }) }

        // Another clause.
        ensures none { OnErr result Nothing }
    {
        self.one()
    }

    fn asked(&self) -> bool
        ensures { result ≡ true };
}

fn plain() -> u32 {
    7
}
"""
ANSWERS = """\
use a.b.{c}

pub returns : goal.returns
returns c =
    let x = c.y in
    x

-- the other
pub returns-2 : goal.returns-2
returns-2 c = z
"""

OUT_OF_MEMORY = Answer(503, {"error": "memory"}, "", True)
# In how many pairs of lists a site that tells what is sealed has to be found.
MOST_PAIRS = 1000
# Whether something sealed is so in a plain house: of its first item, and of what its second member has bid, watches or asks there.
SECRETS = {
    "reserve": lambda house: house.rows and (house.rows[0].reserve or 0) > 100_000,
    "maximum": lambda house: max(house.maxima(1, 2), default=0) > 100_000,
    "watch": lambda house: (2, 1) in house.watching,
    "question": lambda house: any((asked.item, asked.asker, asked.answer) == (1, 2, None) for asked in house.asked),
}


def fails(call, *words):
    """Whether a call finds what it is given wrong."""
    try:
        call(*words)
    except (Malformed, ValueError):
        return True
    return False


def printed(call, *words):
    """What a call gives, and what it prints."""
    with contextlib.redirect_stdout(io.StringIO()) as text:
        given = call(*words)
    return given, text.getvalue()


def counts():
    """A wrong check is told, counted, and decides the exit status."""
    checks = Checks()
    check("no check", printed(checks.verdict), (0, "0 checks, 0 wrong\n"))
    check("a right check", printed(checks.check, "name", 1, 1), (None, ""))
    check("a claim that holds", printed(checks.claim, "name", [1]), (None, ""))
    check("all are right", printed(checks.verdict), (0, "2 checks, 0 wrong\n"))
    check("a wrong check", printed(checks.check, "name", b"1", b"2"), (None, "name: got b'1', wanted b'2'\n"))
    check("a claim that doesn't hold", printed(checks.claim, "name", []), (None, "name\n"))
    check("some are wrong", printed(checks.verdict, "7 runs"), (1, "7 runs, 2 wrong\n"))
    check("a refused run that is wrong", printed(report, 3, [(2, "ended")]), (1, "allocation 2: ended\n3 runs, 1 wrong\n"))
    check("refused runs that are right", printed(report, 3, []), (0, "3 runs, 0 wrong\n"))


def answers():
    """An answer is well formed, or is found not to be."""
    check("two answers", answers_in(OK + MAY), ([OK, MAY], b""))
    check("an answer, and a rest", answers_in(OK + b"rest"), ([OK], b"rest"))
    check("by a connection", next_answer(io.BytesIO(OK + MAY)), OK)
    check("a connection that ends", next_answer(io.BytesIO(OK[:-1])), None)
    for text, old, new in SPOILED:
        spoiled = text.replace(old, new)
        claim(f"{spoiled} passes", fails(answers_in, spoiled))
    claim("a value that is no compact JSON passes", fails(value_of, b'{"a": 1}'))
    check("want of memory", [gives_up(b"HTTP/1.1 %d " % status) for status in (200, 404, 500, 503)], [False, False, True, True])
    claim("a program that ends with 1 passes", fails(replayed, "/bin/false", b""))


def streams():
    """A head ends at its first empty line, and a body has as many bytes as the head says."""
    first = ([b"GET /a HTTP/1.1", b"host: h"], b"")
    second = ([b"POST /b HTTP/1.1", b"Content-Length: 3"], b"abc")
    rest = STREAM[STREAM.index(b"POST /c"):]
    check("a stream", cut(STREAM), ([first, second], rest))
    check("a stream of lines that end short", cut(STREAM.replace(b"\r\n", b"\n")), ([first, second], rest.replace(b"\r\n", b"\n")))
    request = request_of(*second)
    check("a message", (request.method, request.target, request.body), ("POST", "/b", b"abc"))


def sections():
    """A section ends where the next begins, and one that is missing is found missing."""
    check("a section", section(TRANSCRIPT, "one"), "-- a comment\n> ask\nanswer\n\n> ask again\n")
    check("the last section", section(TRANSCRIPT, "two"), "> ask\nother\n")
    claim("a section that isn't there passes", fails(section, TRANSCRIPT, "three"))
    check("its lines", pairs(section(TRANSCRIPT, "one")), [("ask", ["answer"]), ("ask again", [])])


def reasons():
    """Why a wrong body is refused: a goal of the contract counts, a limit and a lost name don't."""
    function = Function("src/a.rt", "f", "", 6, 6, 9)
    for name, said, kind, by_shape in CHECKED:
        left = lefts(said, {}, (function,))
        check(name, (class_of(left), Found(class_of(left), tuple(left or ())).by_shape()), (kind, by_shape))
    misfit = lefts(CHECKED[10][1], {}, (function,))
    check("an answer that no longer fits, whose goal is proved without it", class_of(both(misfit, [])), PROVED)
    for name, said, whys in [("false", CHECKED[0][1], [MISFIT, FALSE]), ("open", CHECKED[0][1].replace(VALUES, ""), [MISFIT])]:
        check(f"one whose goal is {name} without it", [one.why for one in both(misfit, lefts(said, {}, (function,)))], whys)
    check("functions", [(one.name, one.first, one.opens, one.last) for one in functions_of("src/a.rt", CODE)],
          [("take", 2, 9, 11), ("plain", 17, 17, 19)])
    take, plain = functions_of("src/a.rt", CODE)
    check("their names", (take.asked(), plain.asked(), owner("impl fmt::Display for Cents {")),
          ("ReadingSource::take", "a::plain", ("Display", "Cents")))
    check("one of several", fitting(take, ["c::a::OtherSource::take", "c::b::ReadingSource::take"]), ["c::b::ReadingSource::take"])
    check("an edit", list(rows_of("file: src/a.rt\nold: 7\nnew: 8\nold:  x\nnew:\n")),
          [("src/a.rt", "7", "8"), ("src/a.rt", " x", "")])
    check("answers without one", without_answers(ANSWERS, {"returns"}),
          "use a.b.{c}\n\n-- the other\npub returns-2 : goal.returns-2\nreturns-2 c = z\n")


class TellingSite(Lists):
    """Twin lists that a site plays which answers what is read, or what is ordered, by 503 where something sealed is so."""

    def __init__(self, is_so, method):
        super().__init__("", "", SEED)
        self.is_so, self.method = is_so, method

    def answer_texts(self, settings, run):
        site, texts = Site(**settings), []
        for request in run.requests:
            tells, answer = request.method == self.method and self.is_so(site.house), site.answer(request)
            texts.append((OUT_OF_MEMORY if tells and answer.status in (200, 201) else answer).text())
        return texts

    def fail(self, what, expected, got):
        self.wrong += 1

    def is_found(self, most=MOST_PAIRS):
        """Whether some answer is wrong in so many lists and twins of them."""
        for _ in range(most):
            settings, requests, member = self.first()
            left = Run(settings, requests, member)
            right, kinds = self.twin(settings, left, member)
            if kinds and are_lists(left, right):
                self.answers(settings, left, member)
                self.answers(settings, right, member)
            if self.wrong:
                return True
        return False


def secrets():
    """A 503 that goes by what somebody has sealed is found in twin lists, and a site that tells nothing passes."""
    for name, is_so in SECRETS.items():
        for method in ("GET", "POST"):
            claim(f"503 to {method} by a {name} passes", TellingSite(is_so, method).is_found())
    claim("a site that tells nothing is found", not TellingSite(lambda house: False, "GET").is_found(20))


def main():
    counts()
    answers()
    streams()
    sections()
    reasons()
    secrets()
    return verdict()


if __name__ == "__main__":
    sys.exit(main())

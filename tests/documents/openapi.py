#!/usr/bin/env python3
"""Holds answers against docs/openapi.yaml, the description of the interface: `openapi.py SUITE..`.

The suites are folders of conformance cases. Each answer of `replay` and of `serve` that is in a case is held against its place in
the description: the path and the method of its message, its status, its headers and its body. The lists of `audit` and `surplus`
have no answers with them; those of tests/lib/plain_site.py are held. A message that was accepted has to fit the description too,
in its path, its headers and its body. One that was answered a fault of these must not. At the bounds of each field and past them
a body fits exactly where the plain site takes it.

What is described has to be used: each operation, each refusal and each field of each operation, each fault, each status and each
word of an enumeration. What no case has, `unseen` has from the rules. A refusal has the number and the status of the rules, and
those of a command are in the order of docs/HTTP.md. Nothing in an answer is open: an object has all its keys and no other, and
numbers, texts and lists have bounds. Last, an answer of each kind is spoiled in each way of tests/lib/spoiled_answers.py, and
none of these may fit.

Needs the packages jsonschema and openapi-spec-validator. `openapi.py --packages` tells in one line which is missing, and ends
with 1 then. The last line is 'N answers, M spoiled, K wrong'.

Promise: none
"""
import dataclasses
import json
import pathlib
import re
import sys

try:
    import jsonschema
    import openapi_spec_validator
    import yaml
except ImportError as missing:
    sys.exit(f"openapi.py: no package {missing.name}: pip install jsonschema openapi-spec-validator")

from lib.frame import cut, request_of
from lib.places import ROOT
from lib.plain_house import BANDS, MOST_CENTS, is_table
from lib.plain_site import AHEAD, NUMBERS, SHORT, Site, body_of, frame_fault, refused
from lib.sent import HEAD, Answer, answers_in, command, compact
from lib.spoiled_answers import spoiled

DOCS = ROOT / "docs"
# How many failures are shown, and how many letters an answer has at most that is spoiled.
SHOWN, MOST_SPOILED = 10, 2000
# Faults of a frame, and those that path, method and headers alone decide.
OF_FRAME = {"head", "host", "transfer", "length", "size", "end"}
BEFORE_BODY = {"path", "method", "member", "moment", "date"}
# Operations whose limit takes too many rows for a case.
MANY = ["register", "list", "bid"]
# A row of a command in HTTP.md: its path, who sends it, its own refusals.
ROW = re.compile(r"^\| `(/[^`]*)` \| ([^|]+) \| [^|]+ \| ([^|]+) \|$", re.M)
# In JSON Schema 7.0 is an integer, in the house it is not.
TYPES = jsonschema.Draft202012Validator.TYPE_CHECKER.redefine(
    "integer", lambda _, value: isinstance(value, int) and not isinstance(value, bool))
Validator = jsonschema.validators.extend(jsonschema.Draft202012Validator, type_checker=TYPES)


# The description.

class Description:
    """The description, with each reference replaced by what it names."""

    def __init__(self, document):
        self.document, self.named, self.validators = document, {}, {}
        whole = self.inlined({key: document[key] for key in ("paths", "x-no-operation")})
        self.operations = [Operation(path, method, operation, parts.get("parameters", []))
                           for path, parts in whole["paths"].items()
                           for method, operation in parts.items() if method != "parameters"]
        self.outside = Outside(whole["x-no-operation"]["responses"])
        self.places = [*self.operations, self.outside]

    def inlined(self, value):
        if isinstance(value, list):
            return [self.inlined(part) for part in value]
        if not isinstance(value, dict):
            return value
        parts = {key: self.inlined(part) for key, part in value.items() if key != "$ref"}
        if "$ref" not in value:
            return parts
        named = self.of(value["$ref"])
        narrower = {key: part for key, part in parts.items() if key != "description"}
        return {**named, "allOf": [*named.get("allOf", []), narrower]} if narrower else named

    def of(self, reference):
        """What a reference names: the same object each time, so that its validator is made once."""
        if reference not in self.named:
            part = self.document
            for key in reference.split("/")[1:]:
                part = part[key]
            self.named[reference] = self.inlined(part)
        return self.named[reference]

    def fits(self, schema, value):
        if id(schema) not in self.validators:
            self.validators[id(schema)] = Validator(schema, format_checker=Validator.FORMAT_CHECKER)
        return self.validators[id(schema)].is_valid(value)

    def fits_text(self, schema, text):
        """Whether a text in a path or a header fits: a number is written in one way."""
        if schema["type"] != "integer":
            return self.fits(schema, text)
        return SHORT.fullmatch(text) is not None and self.fits(schema, int(text))

    def place(self, method, target):
        """What a message asks for: an operation, else one of its path, else none. A query is no part of a path."""
        found = [operation for text in (target, target.split("?")[0]) for operation in self.operations
                 if operation.targets.fullmatch(text)]
        return next((operation for operation in found if operation.method == method), [*found, self.outside][0])

    def is_answer(self, place, reply):
        """Whether an answer is one that the description has in a place."""
        response = place.responses.get(reply.status)
        return (response is not None and self.has_headers(response, reply.headers)
                and self.fits(body_schema(response), reply.value))

    def has_headers(self, response, headers):
        """Whether these are the headers of a response, and no others; the body's type goes with its schema."""
        described = response["headers"]
        if headers.get("content-type") not in response["content"] or headers.keys() - described - {"content-type"}:
            return False
        return all(self.fits_text(header["schema"], headers[name]) if name in headers else not header.get("required")
                   for name, header in described.items())


class Outside:
    """The place of messages that no operation takes."""
    name, method = "no operation", ""

    def __init__(self, responses):
        self.responses = responses


class Operation:
    """A method of a path: the form of its targets, its parameters, what its body is, and its responses."""

    def __init__(self, path, method, operation, parameters):
        self.name, self.method, self.path = operation["operationId"], method.upper(), path
        self.parameters = {(row["in"], row["name"]): row["schema"] for row in [*parameters, *operation["parameters"]]}
        self.targets = re.compile(re.sub(r"\{([a-z]+)\}", r"(?P<\1_>[^/]+)", path))
        self.body = operation["requestBody"]["content"]["application/json"] if "requestBody" in operation else None
        self.responses, self.text = operation["responses"], operation.get("description", "")

    def in_path(self, target):
        """The parameters in a target, each its schema and its text; None where the target has a query too."""
        parts = self.targets.fullmatch(target)
        return parts and [(self.parameters["path", name[:-1]], text) for name, text in parts.groupdict().items()]


def body_schema(response):
    return response["content"]["application/json"]["schema"]


def errors_of(schema):
    """The errors that a schema admits, each with its own schema: '' for none, and with the field of a fault of one."""
    if "oneOf" in schema:
        return {name: part for option in schema["oneOf"] for name, part in errors_of(option).items()}
    parts = schema["properties"]
    fields = parts.get("field", {}).get("enum", [])
    error = parts.get("error", {}).get("const", "")
    return {f"{error} {field}": schema for field in fields} if fields else {error: schema}


def open_parts(schema):
    """The parts of a schema that admit more than they have to."""
    if "const" in schema or "enum" in schema:
        return
    parts, kind = schema.get("oneOf", []), schema.get("type")
    if kind == "object":
        parts = schema["properties"].values()
        is_closed = schema.get("additionalProperties") is False and schema["required"] == list(schema["properties"])
    elif kind == "array":
        parts, is_closed = [schema["items"]], "maxItems" in schema
    elif kind == "string":
        is_closed = {"maxLength", "pattern"} <= schema.keys() or re.search(r"\{[0-9,]+\}\$$", schema.get("pattern", ""))
    else:
        is_closed = kind in ("boolean", "null") or {"minimum", "maximum"} <= schema.keys() or parts
    if not is_closed:
        yield schema
    for part in parts:
        yield from open_parts(part)


def words_of(schema, key=""):
    """The words that a schema enumerates, each with its key."""
    yield from ((key, word) for word in schema.get("enum", []))
    for option in [*schema.get("oneOf", []), *([schema["items"]] if "items" in schema else [])]:
        yield from words_of(option, key)
    for name, part in schema.get("properties", {}).items():
        yield from words_of(part, name)


# Cases.

def leaves(value, key=""):
    """The texts and numbers in a value, each with its key."""
    if not isinstance(value, (dict, list)):
        yield key, value
    for name, part in value.items() if isinstance(value, dict) else []:
        yield from leaves(part, name)
    for part in value if isinstance(value, list) else []:
        yield from leaves(part, key)


@dataclasses.dataclass(frozen=True)
class Reply:
    """An answer taken apart."""
    status: str
    headers: dict
    value: dict

    @staticmethod
    def of(text):
        head, _, body = text.decode().partition("\r\n\r\n")
        line, *headers = head.split("\r\n")
        return Reply(line.split(" ")[1], dict(header.split(": ", 1) for header in headers), json.loads(body))

    def error(self):
        """The error, with the name of a field; nothing of an answer to what was accepted."""
        return " ".join(self.value[key] for key in ("error", "field") if key in self.value)


def answered(stream, text):
    """The messages of a stream, each with its answer; one that was cut short has its first line alone."""
    answers, _ = answers_in(text)
    messages, left = cut(stream)
    requests = [request_of(*message) for message in messages]
    if left:
        requests.append(request_of([left.lstrip(b"\r\n").split(b"\n")[0].rstrip(b"\r")], b""))
    if len(answers) > len(requests) or len(answers) < len(requests) and not HEAD.match(answers[-1])[5]:
        raise ValueError(f"{len(requests)} messages, {len(answers)} answers")
    return zip(requests, answers)


def by_rules(stream, words, folder):
    """The messages of a list up to the first broken frame, with the answers of the plain site."""
    options, bands = dict(zip(words, words[1:])), BANDS
    if "--bands" in options:
        rows = (folder / options["--bands"]).read_text().replace('"', "").split()[1:]
        bands = [tuple(map(int, row.split(","))) for row in rows]
    # In a zone that the plain site lacks other days would be shown, in the same form.
    zone = options.get("--zone") if options.get("--zone") in AHEAD else "UTC0"
    site = Site(int(options.get("--rate", "1000")), zone, bands=bands)
    for message in cut(stream)[0]:
        request = request_of(*message)
        if request is None or frame_fault(request):
            return
        yield request, site.answer(request).text()


def pairs_of(case):
    """The messages of a case with their answers."""
    words = case.read_text().splitlines()
    if words[0] == "replay" and not case.with_suffix(".err").read_bytes():
        yield from answered(case.with_suffix(".in").read_bytes(), case.with_suffix(".out").read_bytes())
    if case.with_suffix(".made_by").exists():
        yield from answered(case.with_suffix(".made_by").read_bytes(), case.with_suffix(".served").read_bytes())
    for path in map(case.with_suffix, (".left", ".right", ".list")):
        if path.exists():
            yield from by_rules(path.read_bytes(), words, case.parent)


def unseen(operation):
    """Answers of an operation that no case has, by the rules."""
    for status, error in ((503, "memory"), (500, "store"), (500, "damaged")):
        yield Answer(status, {"error": error}).text()
    if operation.name in MANY:
        yield Answer(*refused("Limit")).text()
    if operation.name in ("settle", "addCategory", "close", "member"):
        yield Answer(*refused("NoCaller")).text()
    if operation.name == "addCategory":
        yield Answer(400, {"error": "json"}).text()
    if operation.name == "feedback":
        yield Answer(400, {"error": "field", "field": "rating"}).text()
    if operation.name == "list":
        for field in ("text", "start", "buy_now", "end", "reserve"):
            yield Answer(400, {"error": "field", "field": field}).text()


# What is held.

class Held:
    """The answers that were held, one of each kind, and how many things were wrong."""

    def __init__(self, description):
        self.description, self.count, self.spoiled, self.wrong = description, 0, 0, 0
        self.kinds, self.known, self.words = {}, set(), set()

    def fail(self, *what):
        self.wrong += 1
        if self.wrong <= SHOWN:
            print(*what)

    def hold(self, place, text, where):
        """Holds an answer against its place; gives its error."""
        self.count += 1
        reply = Reply.of(text)
        kind = place.name, reply.status, reply.error()
        if (kind, text) not in self.known:
            self.known.add((kind, text))
            self.words.update(leaves(reply.value))
            # The fullest of each kind is spoiled later, as long as that takes no time.
            if kind not in self.kinds or len(str(self.kinds[kind][1])) < len(str(reply)) < MOST_SPOILED:
                self.kinds[kind] = place, reply
            if not self.description.is_answer(place, reply):
                self.fail(where, kind, text)
        return reply.value.get("error", "")

    def hold_case(self, case):
        for request, text in pairs_of(case):
            place = self.description.place(request.method, request.target) if request else self.description.outside
            error = self.hold(place, text, case.stem)
            if place is not self.description.outside and error not in OF_FRAME:
                misfit = self.misfit(place, request)
                if not is_right(request, error, misfit):
                    self.fail(f"{case.stem}: answered {error or 'accepted'}, misfit {misfit}:", request.text()[-300:])

    def misfit(self, place, request):
        """The first part of a message that does not fit the description, or none."""
        in_path, fits_text = place.in_path(request.target), self.description.fits_text
        if in_path is None or not all(fits_text(*part) for part in in_path if part[0]["type"] == "integer"):
            return "path"
        if request.method != place.method:
            return "method"
        for name in ("x-member", "x-moment"):
            schema, values = place.parameters.get(("header", name)), request.values(name)
            if schema and not (len(values) == 1 and fits_text(schema, values[0])):
                return name.removeprefix("x-")
        if not all(fits_text(*part) for part in in_path):
            return "date"
        fits = place.body is None or self.description.fits(place.body["schema"], body_of(request.body))
        return None if fits else "body"

    # The description as a whole.

    def uses(self):
        """All that is described is used: by name, and in each operation what is its own."""
        used = {(place, error) for place, _, error in self.kinds}
        used |= {(status, error.split(" ")[0]) for _, status, error in self.kinds}
        for place in self.description.places:
            for status, response in place.responses.items():
                for key, word in set(words_of(body_schema(response))) - self.words:
                    self.fail("no answer has", key, word)
                for error in errors_of(body_schema(response)):
                    name, *field = error.split(" ")
                    if (status, name) not in used:
                        self.fail("no answer is", status, name)
                    is_own = name in NUMBERS or name in ("", "json") or field
                    if is_own and (place.name, error) not in used:
                        self.fail("no answer of", place.name, "is", error or status)
        text = json.dumps(self.description.document)
        for kind, parts in self.description.document["components"].items():
            for name in parts:
                if f'"#/components/{kind}/{name}"' not in text:
                    self.fail("nothing has", kind, name)

    def numbers(self):
        """A refusal has its number and its status, and those of a command are those of its row in HTTP.md."""
        rows = ROW.findall((DOCS / "HTTP.md").read_text())
        rows = {re.sub(r"\b[A-Z]\b", "{}", path): (by, own.replace("none", "").split(", ")) for path, by, own in rows}
        for place in self.description.operations:
            has = {error: (schema["properties"]["number"]["const"], int(status))
                   for status, response in place.responses.items()
                   for error, schema in errors_of(body_schema(response)).items() if error in NUMBERS}
            if has != {error: NUMBERS[error] for error in has}:
                self.fail(place.name, "has other numbers or statuses than the rules:", has)
            if place.method == "POST":
                by, own = rows[re.sub(r"\{[a-z]+\}", "{}", place.path)]
                order = ["NoCaller", *["HouseOnly"] * (by == "house"), "MomentBehind", *filter(None, own)]
                if f"Refusals in order: {', '.join(order)}." not in place.text:
                    self.fail(place.name, "does not name its refusals as HTTP.md does:", order)
                if has.keys() != {name.split(" ")[0] for name in order}:
                    self.fail(place.name, "has other refusals than HTTP.md:", sorted(has))

    def closed(self):
        """Nothing in an answer is open, and no field of a command."""
        for place in self.description.places:
            schemas = [body_schema(response) for response in place.responses.values()]
            fields = place.body["schema"]["properties"].values() if place.method == "POST" and place.body else []
            wide = [part for schema in schemas for part in open_parts(schema)]
            # Of the objects in a field other keys are ignored, where that is said.
            wide += [part for schema in fields for part in open_parts(schema) if part.get("additionalProperties") is not True]
            for part in wide:
                self.fail(place.name, "is too wide:", part)

    def examples(self):
        """Each example is one."""
        for place in self.description.operations:
            contents = [response["content"]["application/json"] for response in place.responses.values()]
            for content in [*contents, *([place.body] if place.body else [])]:
                if "example" in content and not self.description.fits(content["schema"], content["example"]):
                    self.fail(place.name, "has an example that is none:", content["example"])

    def bounds(self):
        """At the bounds of each field and past them a body fits exactly where the rules take it."""
        for place in self.description.operations:
            for field, schema in place.body["schema"]["properties"].items() if place.body else []:
                for value in at_bounds(schema):
                    fields = {**BODIES[place.name][2], field: value}
                    error = sent_alone(place.name, fields)
                    is_out = error in ("field", "Range")
                    # Whether there is a category of a number is another matter.
                    if error != "Unknown" and is_out == self.description.fits(place.body["schema"], fields):
                        self.fail(place.name, "is answered", error or "accepted", "with", field, repr(value)[:60])

    def spoil(self):
        """No spoiled answer fits."""
        for place, reply in self.kinds.values():
            for other in spoiled(place, reply):
                self.spoiled += 1
                if self.description.is_answer(place, other):
                    self.fail("spoiled, and fits:", place.name, other)


def is_right(request, error, misfit):
    """Whether a message was answered as it has to be, by the first part of it that does not fit."""
    if error in BEFORE_BODY or misfit in BEFORE_BODY:
        return error == misfit
    if error in ("json", "field"):
        return misfit == "body"
    if error == "Range":
        return misfit == "body" or is_out_of_range(request)
    return misfit is None or error in NUMBERS


def is_out_of_range(request):
    """Whether a body may be so by what no schema says: numbers together, the moment, or a length in bytes."""
    fields = body_of(request.body)
    bands = [(band["at"], band["step"]) for band in fields.get("bands", BODIES["setBands"][2]["bands"])]
    prices = [fields[name] for name in ("start", "buy_now") if fields.get(name) is not None]
    reserve, most = fields.get("reserve"), fields.get("buy_now") or MOST_CENTS
    is_reserve = reserve is None or fields["start"] < reserve <= most
    return (prices != sorted(prices) or not is_reserve or not is_table(bands) or fields.get("end", sys.maxsize) <= int(request.values("x-moment")[0])
            or not all(text.isascii() for text in fields.values() if isinstance(text, str)))


# Bodies at their bounds.

BEGIN = [command("/members", 0, 0, compact({"name": name})) for name in ("Ana", "Ben", "Cid")] + [
    command("/categories", 0, 0, compact({"name": "Books"})),
    command("/items", 1, 0, compact({"category": 1, "end": 9, "lot": "A1", "start": 1, "text": "", "title": "Atlas"})),
    command("/items", 1, 0, compact({"category": 1, "end": 1, "lot": "B2", "start": 1, "text": "", "title": "Globe"})),
    command("/items/2/bids", 3, 0, compact({"maximum": 1})),
    command("/items/1/questions", 2, 0, compact({"text": "How old?"}))]
CLOSED = command("/close", 0, 1)
# A command of each operation that has a body: its target, its caller, and fields that are accepted.
BODIES = {"register": ("/members", 0, {"name": "Dora"}), "addCategory": ("/categories", 0, {"name": "Maps"}),
          "list": ("/items", 1, {"category": 1, "end": 9, "lot": "C3", "start": 1, "text": "", "title": "Map"}),
          "bid": ("/items/1/bids", 2, {"maximum": 1}), "ask": ("/items/1/questions", 2, {"text": "Why?"}),
          "answer": ("/items/1/questions/2/1/answer", 1, {"text": "1952"}),
          "feedback": ("/items/2/feedback", 3, {"rating": 1, "text": ""}),
          "setBands": ("/bands", 0, {"bands": [{"at": 0, "step": 1}]})}


def at_bounds(schema):
    """Values at the bounds of a schema, and past them."""
    for option in schema.get("oneOf", []):
        yield from at_bounds(option)
    if schema.get("type") == "array":
        yield from (None, {}, [], [None], [{}], [{"at": 0, "step": 1}, 1])
        yield from ([{"at": at, "step": at + 1} for at in range(count)] for count in (1, 2, 50, 51))
        yield from ([{"at": 0, "step": step}] for step in (0, 1, MOST_CENTS, MOST_CENTS + 1, "1", -1))
        yield from ([{"at": 0, "step": 1}, {"at": at, "step": 1}] for at in (1, MOST_CENTS, MOST_CENTS + 1, None))
    elif "enum" in schema:
        yield from [*schema["enum"], min(schema["enum"]) - 1, max(schema["enum"]) + 1]
    elif schema.get("type") == "integer":
        yield from (schema["minimum"] - 1, schema["minimum"], schema["maximum"], schema["maximum"] + 1)
    elif schema.get("type") == "string":
        lengths = {0, 1, 2, 20, 21, schema.get("maxLength", 0), schema.get("maxLength", 0) + 1}
        yield from ("x" * length for length in sorted(lengths))
        yield from ("a\u001f", "a\u007f", "a b", "a_b")
    else:
        yield None


def sent_alone(name, fields):
    """What the plain site answers to a command in a house that begins: its error, or nothing."""
    site, (target, caller, _) = Site(), BODIES[name]
    for request in [*BEGIN, *[CLOSED] * (name == "feedback")]:
        assert site.answer(request).status in (200, 201), request
    moment = 1 if name == "feedback" else 0
    return site.answer(command(target, caller, moment, compact(fields))).value.get("error", "")


def main():
    if sys.argv[1:] == ["--packages"]:
        return 0
    document = yaml.safe_load((DOCS / "openapi.yaml").read_text())
    held = Held(Description(document))
    for error in openapi_spec_validator.OpenAPIV31SpecValidator(document).iter_errors():
        held.fail("no OpenAPI 3.1:", error.message)
    for folder in map(pathlib.Path, sys.argv[1:]):
        before = held.count
        for case in sorted(folder.glob("*.args")):
            held.hold_case(case)
        print(f"{folder.name}: {held.count - before} answers")
    for operation in held.description.operations:
        for text in unseen(operation):
            held.hold(operation, text, "by the rules")
    for check in (held.uses, held.numbers, held.closed, held.examples, held.bounds, held.spoil):
        check()
    errors = {error.split(" ")[0] for _, _, error in held.kinds if error}
    print(f"{len(held.description.operations)} operations, {len(errors)} errors, {len(held.kinds)} kinds of answer")
    print(f"{held.count} answers, {held.spoiled} spoiled, {held.wrong} wrong")
    return 1 if held.wrong else 0


if __name__ == "__main__":
    sys.exit(main())

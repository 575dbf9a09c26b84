"""What the modules of the page make of amounts, zones and refusals, beside what the rules and the C library make of them."""
import pathlib
import random
import re
import time

from lib.checks import check
from lib.places import ROOT
from lib.plain_site import NUMBERS
from parts.page_house import in_zone

PAGE = ROOT / "deploy" / "gateway" / "page"
RULES = ["UTC0", "CET-1CEST,M3.5.0,M10.5.0/3", "EST5EDT,M3.2.0,M11.1.0", "AEST-10AEDT,M10.1.0,M4.1.0/3", "<+0330>-3:30",
         "NST3:30NDT,M3.2.0,M11.1.0", "<-03>3<-02>,M3.5.0/-2,M10.5.0/-1", "IST-1GMT0,M10.5.0,M3.5.0/1", "XXX-2YYY,J60/0,J300/25",
         "XXX5:15:30YYY,59/3,299"]
NO_RULES = ["", "UTC", "Europe/Berlin", "CET-1CEST,M3.5.0", "A0"]
LAST = 4_102_444_799
AMOUNTS = {"5": 500, "5.5": 550, "5.50": 550, "5,50": 550, " 1 234.50 ": 123450, "5 000": 500_000, "1,234.50": 123450, "1.234,5": 123450, "0.01": 1,
           "10000000": 1_000_000_000, "0": 0}
NO_AMOUNTS = ["", "12 50", "five", "-5", "+5", "5.555", "1,234", "1.234", "1,23.45", "1e3", "5.", ".5", "0x10", "123456789", "٥", "5 €"]
SHOWN = {0: "0.00", 5: "0.05", 99999: "999.99", 100000: "1,000.00", 1_000_000_000: "10,000,000.00"}
# Every word that an answer may have for why, beside those of the house's rules.
FAULTS = ["memory", "store", "damaged", "member", "path", "date", "order", "silence", "head", "json", "field"]
GATEWAY = ["head", "sign-in", "foreign", "path", "method", "slow", "size", "host", "often", "clock", "house", "words"]
TRIED = [None, "bid", "buy", "watch", "ask", "answer", "rate", "list", "settle", "register", "category"]
# What a page must not do, in files that are its own.
NEVER = ["innerHTML", "outerHTML", "insertAdjacentHTML", "document.write", "eval(", "Function(", "srcdoc", "window.confirm",
         "alert(", "prompt(", "localStorage", "setAttribute(\"style\"", "http://", "https://", "createContextualFragment",
         "DOMParser"]


def in_page(page, module, work, words):
    """What a module's functions make of words: the body of a function with the module as `it`."""
    script = f"""const done = arguments[arguments.length - 1], words = arguments[0];
        import("/{module}").then(it => done({work})).catch(fault => done(String(fault)))"""
    return page.run_until_done(script, words)


def amounts(page):
    texts = [*AMOUNTS, *NO_AMOUNTS]
    results = in_page(page, "words/money.js", "words.map(it.cents)", texts)
    check("amounts that are read", dict(zip(texts, results)), {**AMOUNTS, **dict.fromkeys(NO_AMOUNTS)})
    check("amounts that are shown", in_page(page, "words/money.js", "words.map(it.money)", list(SHOWN)), list(SHOWN.values()))


def zones(page, seed):
    """Each moment is shown as the C library shows it, and what is shown leads back to a moment that is shown so."""
    chosen = random.Random(seed)
    for rule in RULES:
        with in_zone(rule):
            offsets(page, rule, [chosen.randrange(LAST) for _ in range(2000)] + turns(chosen))
    check("what is no rule", in_page(page, "time/zone.js", "words.map(it.parse)", NO_RULES), [None] * len(NO_RULES))


def offsets(page, rule, moments):
    wanted = [offset(moment) for moment in moments]
    results = in_page(page, "time/zone.js", "words[1].map(moment => it.at(it.parse(words[0]), moment).offset)", [rule, moments])
    wrong = [pair for pair in zip(moments, results, wanted) if pair[1] != pair[2]]
    check(f"offsets of {rule}", wrong[:3], [])
    backward(page, rule, moments)


def offset(moment):
    return time.localtime(moment).tm_gmtoff


def turns(chosen):
    """Moments at and about those at which the zone's clocks are set, which are found by halves."""
    found = []
    for _ in range(30):
        low = chosen.randrange(LAST - 366 * 86_400)
        high = low + 200 * 86_400
        if offset(low) == offset(high):
            continue
        while high - low > 1:
            middle = (low + high) // 2
            low, high = (middle, high) if offset(middle) == offset(low) else (low, middle)
        found += [low - 1, low, high, high + 1, high + 3599, high + 3600]
    return found


def spelled(moment):
    """Day and time that a clock shows in the zone that is set."""
    local = time.localtime(moment)
    return time.strftime("%Y-%m-%d", local), time.strftime("%H:%M:%S", local)


def backward(page, rule, moments):
    """The moment of a day and a minute is shown as that day and minute, and no earlier one of the two candidates is."""
    minutes = sorted({moment // 60 * 60 for moment in moments})
    shown = [spelled(moment) for moment in minutes]
    work = "words[1].map(([day, time]) => it.momentOf(it.parse(words[0]), day, time))"
    results = in_page(page, "time/zone.js", work, [rule, shown])
    wrong = [(moment, back) for moment, back, one in zip(minutes, results, shown) if back > moment or spelled(back) != one]
    check(f"moments of {rule}", wrong[:3], [])


def refusals(page):
    """Each refusal has a sentence of its own that ends, without the interface's word."""
    words = [[{"error": error, "floor": 600, "field": "maximum"}, {"tried": tried, "isRead": is_read}]
             for error in [*NUMBERS, *FAULTS] for tried in TRIED for is_read in (False, True)]
    words += [[{"error": "gateway", "why": why}, {"isRead": is_read}] for why in GATEWAY for is_read in (False, True)]
    results = in_page(page, "words/refusals.js", "words.map(pair => it.sentence(...pair))", words)
    for (refusal, context), sentence in zip(words, results):
        # No sentence shows a word that only programs read, such as NotHigher.
        is_plain = re.fullmatch(r"[A-Z][^{}]*[.]", sentence) and not re.search(r"[a-z][A-Z]|undefined|null", sentence)
        check(f"{refusal} {context}: {sentence}", bool(is_plain), True)
    unlike = [sentence for (refusal, context), sentence in zip(words, results)
              if refusal["error"] in NUMBERS and context == {"tried": None, "isRead": False}]
    check("each has its own", len(set(unlike)), len(NUMBERS))
    check("a faster bid", in_page(page, "words/refusals.js", "it.sentence(...words)", [{"error": "Low", "floor": 600}, {"floor": 550}]),
          "Somebody bid more meanwhile. The next bid is 6.00 or more.")


def reserves(page):
    """Whether a reserve is met is shown where the interface has it."""
    items = [{}, {"met": None}, {"met": True}, {"met": False}]
    results = in_page(page, "items/standing.js", "words.map(it.reserveInWords)", items)
    check("reserves", results, ["", "", "Reserve met", "Reserve not met"])


def imports_of(file):
    """A module and all that it can't begin without."""
    found, todo = set(), [file.resolve()]
    while todo:
        one = todo.pop()
        if one not in found:
            found.add(one)
            todo += [(one.parent / name).resolve() for name in re.findall(r'from "(\.[^"]+)"', one.read_text())]
    return found


def files():
    """The page's own files never read a text as HTML, name no other site, and import what is there. The page names all
    that its scripts can't begin without, so that a browser asks for them at once."""
    page = (PAGE / "index.html").read_text()
    scripts, ahead = (re.findall(f'<{tag}="([^"]+)"', page) for tag in ("script type=\"module\" src", "link rel=\"modulepreload\" href"))
    needed = set().union(*(imports_of(PAGE / name) for name in scripts))
    check("modules that the page names", sorted([*scripts, *ahead]), sorted(str(file.relative_to(PAGE)) for file in needed))
    for file in filter(pathlib.Path.is_file, PAGE.rglob("*")):
        name, text = file.relative_to(PAGE), file.read_text()
        for word in NEVER:
            is_name = word == "http://" and text.count(word) == text.count("http://www.w3.org/2000/svg")
            check(f"{name}: {word}", word in text and not is_name, False)
        for module in re.findall(r'(?:from |import\()"(\.[^"]+)"', text):
            check(f"{name} imports {module}", (file.parent / module).is_file(), True)

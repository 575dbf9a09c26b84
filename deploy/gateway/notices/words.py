"""What a notice says: its subject, and its text, in the language of the city and by the words of its page."""
import json
import pathlib
import unicodedata

PAGE = pathlib.Path(__file__).resolve().parent.parent / "page"


def read_first(files):
    """The value of the first file that is there."""
    return next(json.loads(file.read_bytes()) for file in files if file.is_file())


def tidy(text):
    """A title in one line, without marks that turn or break it."""
    return "".join(" " if unicodedata.category(letter)[0] == "C" or letter in "\u2028\u2029" else letter for letter in text)


class Words:
    """The words of a page, as its city.json chooses them. What that page lacks, the one beside this program has."""

    def __init__(self, page):
        city = read_first([page / "city.json", PAGE / "city.json"])
        names = [f"words/{city.get('language', 'en')}.json", "words/en.json"]
        self.mail = read_first([folder / name for name in names for folder in (page, PAGE)])["mail"]
        self.currency = city.get("currency", "")

    def amount(self, cents):
        whole = f"{cents // 100:,}".replace(",", self.mail["thousands"])
        text = f"{whole}{self.mail['decimal']}{cents % 100:02}"
        return f"{text} {self.currency}" if self.currency else text

    def subject(self, kind, item):
        return self.mail[f"{kind}_subject"].format(title=tidy(item["title"]))

    def text(self, kind, item, origin):
        line = self.mail[f"{kind}_text"].format(price=self.amount(item["price"]))
        return f"{tidy(item['title'])}\n\n{line}\n\n{origin}/#/item/{item['item']}\n"

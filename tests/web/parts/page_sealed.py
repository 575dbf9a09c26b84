"""What one has sealed is in no byte that others are sent: neither in their browsers nor in any file that is written for all.

Each sealed amount has digits of its own, so they are found wherever they are written, in each way of writing them.
"""
import gzip

from lib.checks import check
from parts.page_house import ANA, CID

# What is sealed for good, in cents, by whom: maxima that lead, and a reserve that nobody reaches.
SEALED = {739_157: CID, 868_417: CID, 947_613: ANA}


def spelled(cents):
    """An amount as it may be written anywhere."""
    whole, rest = divmod(cents, 100)
    grouped = f"{whole:,}"
    return [str(cents), f"{whole}.{rest:02}", f"{whole},{rest:02}", f"{grouped}.{rest:02}",
            f"{grouped.replace(',', '.')},{rest:02}", f"{grouped.replace(',', ' ')}.{rest:02}"]


def sealed_by_others(member):
    return [text for cents, owner in SEALED.items() if owner != member for text in spelled(cents)]


def has_any(text, amounts):
    return [one for one in amounts if one in text]


def never_sent(reader, number):
    """No answer, no address and no page of a member has what others sealed."""
    reader.listen()
    amounts = sealed_by_others(number)
    found = [(url, has_any(f"{url} {body}", amounts)) for url, _, body in reader.answers]
    check(f"{reader.name}: sealed amounts of others in answers", [one for one in found if one[1]], [])
    page = reader.page.run("return document.documentElement.outerHTML")
    check(f"{reader.name}: sealed amounts of others on the page", has_any(page, amounts), [])
    heard = " ".join(f"{node.name} {node.value}" for node in reader.tree())
    check(f"{reader.name}: sealed amounts of others that are read out", has_any(heard, amounts), [])


def text_of(file):
    raw = file.read_bytes()
    return (gzip.decompress(raw) if file.suffix == ".gz" else raw).decode()


def never_written(folder, least):
    """No file that is written for all has anything sealed, and there are so many files at least."""
    files = [file for file in sorted(folder.rglob("*")) if file.is_file()]
    check(f"files in {folder.name}", len(files) >= least, True)
    amounts = sealed_by_others(None)
    check(f"sealed amounts in {folder.name}", [(file.name, found) for file in files
                                               if (found := has_any(text_of(file), amounts))], [])

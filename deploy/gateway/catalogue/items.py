"""The public items of a house, as a round knows them: by number, without their long texts."""

# What a list shows of an item. All of it is public; nothing that a member sealed is in any of the house's lists.
SHOWN = ("buy_now", "category", "closed", "count", "end", "item", "leader", "met", "price", "seller", "start", "state", "title")
# In these states an item stays as it is.
FINAL = ("unsold", "settled")


def public_part(item):
    return {key: item[key] for key in SHOWN}


def read_items(house, known, count):
    """All items: those that are known and stay as they are, and the others as the house tells them now."""
    first = first_to_read(house, known, count)
    items = {number: item for number, item in known.items() if number < first}
    for category in house.read("/categories")["categories"]:
        items.update((item["item"], public_part(item)) for item in house.items_of(category["category"], first))
    return dict(sorted(items.items()))


def first_to_read(house, known, count):
    """The first number that may have changed; 1 where what is known is of another house, or of an older copy of it."""
    changing = [number for number, item in known.items() if item["state"] not in FINAL]
    first = min(changing, default=max(known, default=0) + 1)
    if first == 1:
        return 1
    is_same = max(known) <= count and public_part(house.read(f"/items/{first - 1}")) == known[first - 1]
    return first if is_same else 1


def in_order(items):
    """Open ones first, and of them what ends first. Then the others, and of them what ended last."""
    still_open = sorted((item for item in items if item["state"] == "open"), key=lambda item: (item["end"], item["item"]))
    over = sorted((item for item in items if item["state"] != "open"), key=lambda item: (-item["closed"], -item["item"]))
    return still_open + over


def by(key, items):
    """The items by the value of a key."""
    groups = {}
    for item in items:
        groups.setdefault(item[key], []).append(item)
    return groups

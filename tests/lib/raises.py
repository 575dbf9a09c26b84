"""Bids in a list that are raised, and whether the plain site finds a raise covered."""
import dataclasses

from lib.plain_house import MOST_CENTS, over
from lib.plain_site import COMMANDS, ROUTES, body_of
from lib.twin_lists import caller

MOST_MEMBER, MOST_PLACE = 100_000, 1_000_000
BIDS = ROUTES[COMMANDS["bid"]][0]


@dataclasses.dataclass
class Bid:
    """An accepted bid, with its place in a list."""
    place: int
    member: int
    item: int
    maximum: int
    moment: int


@dataclasses.dataclass
class Raise:
    place: int
    maximum: int
    other: int

    def fits(self):
        """Whether the program's words can say it."""
        return 1 <= self.place <= MOST_PLACE and 0 <= self.maximum <= MOST_CENTS and 1 <= self.other <= MOST_MEMBER


def bids_in(run):
    """The accepted bids of a list, in order."""
    for place, (request, answer) in enumerate(zip(run.requests, run.answers), 1):
        target = BIDS.fullmatch(request.target)
        if target and answer.status == 201:
            yield Bid(place, caller(request), int(target[1]), body_of(request.body)["maximum"],
                      int(request.values("x-moment")[0]))


def last_bids(run):
    """The last accepted bid of each member on each item."""
    return {(bid.member, bid.item): bid for bid in bids_in(run)}.values()


def second(run, bid):
    """The greatest maximum of the others on a bid's item, or none."""
    others = [placed.maximum for placed in bids_in(run) if placed.item == bid.item and placed.member != bid.member]
    return max(others, default=None)


def is_over_second(run, bid):
    """Whether a bid's maximum is at least a step over the second, if there is one."""
    most = second(run, bid)
    house = run.site.house
    return most is None or over(most, house.table(house.found(bid.item))) <= bid.maximum


def reserve(run, bid):
    """The reserve of a bid's item, or none."""
    return run.site.house.found(bid.item).reserve


def is_over_reserve(run, bid):
    """Whether a bid's maximum is at least the reserve, if there is one."""
    return reserve(run, bid) is None or reserve(run, bid) <= bid.maximum


def leads(run, bid):
    house = run.site.house
    return house.leader(house.found(bid.item)) == bid.member


def covered_bid(run, raising):
    """The bid that is raised where this is covered, or none."""
    bid = next((bid for bid in last_bids(run) if bid.place == raising.place), None)
    is_covered = bid is not None and leads(run, bid) and is_over_second(run, bid) and is_over_reserve(run, bid) \
        and bid.maximum < raising.maximum <= MOST_CENTS and raising.other != bid.member
    return bid if is_covered else None

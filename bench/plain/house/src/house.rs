//! Routes, verdicts and pages over `Tables` (memory or SQLite).

use crate::wire::Request;
use serde::Serialize;
use serde_json::Value;
use std::borrow::Cow;
use std::ops::Deref;

pub type Kept<T> = Result<T, Box<dyn std::error::Error>>;

const MOST: u64 = 1_000_000_000;
const LAST: u64 = 4_102_444_800;
pub const PAGE: usize = 50;
pub const BANDS: [(u64, u64); 10] = [
    (0, 5),
    (100, 25),
    (500, 50),
    (2500, 100),
    (10000, 250),
    (25000, 500),
    (50000, 1000),
    (100000, 2500),
    (250000, 5000),
    (500000, 10000),
];

#[derive(Clone, Copy, PartialEq, Eq, Serialize)]
#[serde(rename_all = "lowercase")]
pub enum State {
    Open,
    Sold,
    Unsold,
}

/// What holds a text of a row.
pub trait Text: Clone + Deref<Target = str> + for<'a> From<&'a str> {}

impl<T: Clone + Deref<Target = str> + for<'a> From<&'a str>> Text for T {}

#[derive(Clone)]
pub struct Item<T> {
    pub number: u64,
    pub seller: u64,
    pub category: u64,
    pub lot: T,
    pub title: T,
    pub text: T,
    pub start: u64,
    pub buy_now: Option<u64>,
    pub end: u64,
    pub state: State,
    pub closed: Option<u64>,
    pub standing: Standing,
}

/// Price and leader of an item; `top` is the leader's greatest maximum, `second` that of the others.
#[derive(Clone, Copy)]
pub struct Standing {
    pub price: u64,
    pub leader: Option<u64>,
    pub top: Option<u64>,
    pub second: Option<u64>,
    pub count: u64,
}

impl Standing {
    /// After an accepted bid of `member`.
    fn place(mut self, bands: &[(u64, u64)], start: u64, member: u64, maximum: u64) -> Standing {
        if self.leader == Some(member) {
            self.top = Some(maximum);
        } else if Some(maximum) > self.top {
            self.second = self.top;
            (self.leader, self.top) = (Some(member), Some(maximum));
        } else {
            self.second = self.second.max(Some(maximum));
        }
        if let (Some(top), Some(second)) = (self.top, self.second) {
            self.price = start.max(top.min(over(bands, second)));
        }
        self.count += 1;
        self
    }

    fn floor(&self, bands: &[(u64, u64)]) -> u64 {
        if self.count == 0 {
            self.price
        } else {
            over(bands, self.price)
        }
    }
}

/// One entry of `/me/bids`.
#[derive(Serialize)]
pub struct Mine {
    pub item: u64,
    pub leading: bool,
    pub maximum: u64,
    pub mine: u64,
    pub price: u64,
    pub state: State,
}

#[derive(Serialize)]
pub struct Category {
    pub category: u64,
    pub name: String,
}

/// Reads, and one write per accepted command (a bid's carries the standing after it).
pub trait Tables {
    type Text: Text;

    fn begin(&mut self) -> Kept<()> {
        Ok(())
    }
    fn finish(&mut self, _keep: bool) -> Kept<()> {
        Ok(())
    }
    fn clock(&self) -> Kept<u64>;
    fn members(&self) -> Kept<u64>;
    fn categories(&self) -> Kept<u64>;
    fn items(&self) -> Kept<u64>;
    fn has_member(&self, name: &str) -> Kept<bool>;
    fn has_category(&self, name: &str) -> Kept<bool>;
    fn has_lot(&self, seller: u64, lot: &str) -> Kept<bool>;
    fn item(&self, number: u64) -> Kept<Option<Cow<'_, Item<Self::Text>>>>;
    fn all_categories(&self) -> Kept<Vec<Category>>;
    fn items_in(&self, category: u64, from: u64) -> Kept<Vec<Cow<'_, Item<Self::Text>>>>;
    fn bids_of(&self, member: u64, from: u64) -> Kept<Vec<Mine>>;
    fn register(&mut self, moment: u64, name: &str) -> Kept<u64>;
    fn add_category(&mut self, moment: u64, name: &str) -> Kept<u64>;
    fn list(&mut self, moment: u64, item: Item<Self::Text>) -> Kept<()>;
    fn bid(
        &mut self,
        moment: u64,
        item: u64,
        after: Standing,
        member: u64,
        maximum: u64,
    ) -> Kept<()>;
    fn buy(&mut self, moment: u64, item: u64, member: u64, price: u64) -> Kept<()>;
    /// How many were sold, and how many left unsold.
    fn close(&mut self, moment: u64) -> Kept<(u64, u64)>;
}

#[derive(Clone, Copy, Debug)]
enum Refusal {
    NoCaller,
    HouseOnly,
    Unknown,
    MomentBehind,
    Ended,
    NotOpen,
    OwnItem,
    Low(u64),
    NotHigher,
    HasBids,
    NoBuyNow,
    LotExists,
    NameTaken,
    Limit,
    Range,
}

impl Refusal {
    fn answer(self) -> Answer {
        use Refusal::*;
        let (number, status, error) = match self {
            NoCaller => (1, 403, "NoCaller"),
            HouseOnly => (2, 403, "HouseOnly"),
            Unknown => (4, 404, "Unknown"),
            MomentBehind => (5, 409, "MomentBehind"),
            Ended => (6, 409, "Ended"),
            NotOpen => (7, 409, "NotOpen"),
            OwnItem => (8, 403, "OwnItem"),
            Low(_) => (9, 409, "Low"),
            NotHigher => (10, 409, "NotHigher"),
            HasBids => (11, 409, "HasBids"),
            NoBuyNow => (12, 409, "NoBuyNow"),
            LotExists => (13, 409, "LotExists"),
            NameTaken => (14, 409, "NameTaken"),
            Limit => (19, 409, "Limit"),
            Range => (20, 400, "Range"),
        };
        let body = match self {
            Low(floor) => format!(r#"{{"error":"{error}","floor":{floor},"number":{number}}}"#),
            _ => format!(r#"{{"error":"{error}","number":{number}}}"#),
        };
        Answer {
            status,
            allow: None,
            body: body.into(),
        }
    }
}

pub struct Answer {
    pub status: u16,
    pub allow: Option<&'static str>,
    pub body: Vec<u8>,
}

impl Answer {
    pub fn fault(status: u16, name: &str) -> Answer {
        Answer {
            status,
            allow: None,
            body: format!(r#"{{"error":"{name}"}}"#).into(),
        }
    }
    fn page(status: u16, page: &impl Serialize) -> Kept<Answer> {
        let mut body = Vec::with_capacity(256);
        serde_json::to_writer(&mut body, page)?;
        Ok(Answer {
            status,
            allow: None,
            body,
        })
    }
    fn text(status: u16, body: String) -> Answer {
        Answer {
            status,
            allow: None,
            body: body.into(),
        }
    }
}

// Keys in byte order.
#[derive(Serialize)]
struct ItemPage<'a> {
    buy_now: Option<u64>,
    category: u64,
    closed: Option<u64>,
    count: u64,
    end: u64,
    floor: Option<u64>,
    item: u64,
    leader: Option<u64>,
    lot: &'a str,
    price: u64,
    seller: u64,
    start: u64,
    state: State,
    text: &'a str,
    title: &'a str,
}

#[derive(Serialize)]
struct BidPage {
    count: u64,
    floor: u64,
    leader: Option<u64>,
    price: u64,
}

enum Route {
    Members,
    Categories,
    Items,
    Item(u64),
    Bids(u64),
    Purchase(u64),
    Close,
    ItemsIn(u64, u64),
    Mine(u64),
}

fn number(text: &str) -> Option<u64> {
    let plain = (1..=10).contains(&text.len()) && !text.starts_with('0');
    (plain && text.bytes().all(|b| b.is_ascii_digit())).then(|| text.parse().ok())?
}

fn header(value: Option<&[u8]>) -> Option<u64> {
    let text = std::str::from_utf8(value?).ok()?;
    if text == "0" {
        Some(0)
    } else {
        number(text)
    }
}

fn route(target: &str) -> Option<(Route, &'static str)> {
    let mut parts = target.strip_prefix('/')?.splitn(5, '/');
    let path = [
        parts.next(),
        parts.next(),
        parts.next(),
        parts.next(),
        parts.next(),
    ];
    Some(match path {
        [Some("members"), None, ..] => (Route::Members, "POST"),
        [Some("categories"), None, ..] => (Route::Categories, "GET, POST"),
        [Some("items"), None, ..] => (Route::Items, "POST"),
        [Some("close"), None, ..] => (Route::Close, "POST"),
        [Some("items"), Some(i), None, ..] => (Route::Item(number(i)?), "GET"),
        [Some("items"), Some(i), Some("bids"), None, _] => (Route::Bids(number(i)?), "POST"),
        [Some("items"), Some(i), Some("purchase"), None, _] => {
            (Route::Purchase(number(i)?), "POST")
        }
        [Some("me"), Some("bids"), Some(f), None, _] => (Route::Mine(number(f)?), "GET"),
        [Some("categories"), Some(c), Some("items"), Some(f), None] => {
            (Route::ItemsIn(number(c)?, number(f)?), "GET")
        }
        _ => return None,
    })
}

/// A JSON object's fields; an absent one or one of the wrong kind is named.
struct Fields(Value);

impl Fields {
    fn number(&self, key: &'static str) -> Result<u64, &'static str> {
        self.0[key].as_u64().ok_or(key)
    }
    fn text(&self, key: &'static str) -> Result<&str, &'static str> {
        self.0[key].as_str().ok_or(key)
    }
    fn optional(&self, key: &'static str) -> Result<Option<u64>, &'static str> {
        if self.0[key].is_null() {
            Ok(None)
        } else {
            self.number(key).map(Some)
        }
    }
}

fn fits(text: &str, least: usize, most: usize) -> bool {
    (least..=most).contains(&text.len()) && !text.bytes().any(|b| b < 0x20 || b == 0x7f)
}

fn over(bands: &[(u64, u64)], price: u64) -> u64 {
    price + bands[bands.partition_point(|band| band.0 <= price) - 1].1
}

pub struct House<T> {
    pub tables: T,
    pub bands: Vec<(u64, u64)>,
}

impl<T: Tables> House<T> {
    pub fn new(tables: T) -> Self {
        House {
            tables,
            bands: BANDS.to_vec(),
        }
    }

    pub fn answer(&mut self, request: &Request) -> Answer {
        let Some((route, allow)) = route(request.target) else {
            return Answer::fault(404, "path");
        };
        let read = request.method == "GET";
        if !allow.split(", ").any(|method| method == request.method) {
            return Answer {
                allow: Some(allow),
                ..Answer::fault(405, "method")
            };
        }
        let Some(caller) = header(request.member) else {
            return Answer::fault(400, "member");
        };
        let answer = if read {
            self.read(caller, route)
        } else {
            let Some(moment) = header(request.moment).filter(|m| *m <= LAST) else {
                return Answer::fault(400, "moment");
            };
            let mut fields = Fields(Value::Null);
            if !matches!(route, Route::Purchase(_) | Route::Close) {
                match serde_json::from_slice(request.body) {
                    Ok(object @ Value::Object(_)) => fields = Fields(object),
                    _ => return Answer::fault(400, "json"),
                }
            }
            self.command(caller, moment, route, fields)
        };
        answer.unwrap_or_else(|_| Answer::fault(500, "store"))
    }

    fn read(&self, caller: u64, route: Route) -> Kept<Answer> {
        let mine = matches!(route, Route::Mine(_));
        if caller > self.tables.members()? || (caller == 0 && mine) {
            return Ok(Refusal::NoCaller.answer());
        }
        match route {
            Route::Categories => {
                #[derive(Serialize)]
                struct Page {
                    categories: Vec<Category>,
                }
                Answer::page(
                    200,
                    &Page {
                        categories: self.tables.all_categories()?,
                    },
                )
            }
            Route::Item(number) => match self.tables.item(number)? {
                Some(item) => Answer::page(200, &self.page(&item)),
                None => Ok(Refusal::Unknown.answer()),
            },
            Route::ItemsIn(category, from) => {
                #[derive(Serialize)]
                struct Page<'a> {
                    items: Vec<ItemPage<'a>>,
                }
                if category > self.tables.categories()? {
                    return Ok(Refusal::Unknown.answer());
                }
                let items = self.tables.items_in(category, from)?;
                Answer::page(
                    200,
                    &Page {
                        items: items.iter().map(|item| self.page(item)).collect(),
                    },
                )
            }
            Route::Mine(from) => {
                #[derive(Serialize)]
                struct Page {
                    bids: Vec<Mine>,
                }
                Answer::page(
                    200,
                    &Page {
                        bids: self.tables.bids_of(caller, from)?,
                    },
                )
            }
            _ => unreachable!("a command's path"),
        }
    }

    fn page<'a>(&self, item: &'a Item<T::Text>) -> ItemPage<'a> {
        ItemPage {
            buy_now: item.buy_now,
            category: item.category,
            closed: item.closed,
            count: item.standing.count,
            end: item.end,
            floor: (item.state == State::Open).then(|| item.standing.floor(&self.bands)),
            item: item.number,
            leader: item.standing.leader,
            lot: &item.lot,
            price: item.standing.price,
            seller: item.seller,
            start: item.start,
            state: item.state,
            text: &item.text,
            title: &item.title,
        }
    }

    /// One transaction a command.
    fn command(&mut self, caller: u64, moment: u64, route: Route, fields: Fields) -> Kept<Answer> {
        self.tables.begin()?;
        let done = self.decide(caller, moment, route, &fields);
        self.tables.finish(matches!(done, Ok(Ok(_))))?;
        Ok(match done? {
            Ok(answer) => answer,
            Err(Refused::Rule(refusal)) => refusal.answer(),
            Err(Refused::Field(name)) => {
                Answer::text(400, format!(r#"{{"error":"field","field":"{name}"}}"#))
            }
        })
    }

    fn decide(
        &mut self,
        caller: u64,
        moment: u64,
        route: Route,
        fields: &Fields,
    ) -> Kept<Result<Answer, Refused>> {
        // `?` of the outer result is a fault of the store, of the inner one a refusal.
        macro_rules! refuse {
            ($if:expr, $refusal:expr) => {
                if $if {
                    return Ok(Err(Refused::Rule($refusal)));
                }
            };
        }
        macro_rules! field {
            ($field:expr) => {
                match $field {
                    Ok(value) => value,
                    Err(name) => return Ok(Err(Refused::Field(name))),
                }
            };
        }
        let tables = &mut self.tables;
        let common = |tables: &T, house: bool| -> Kept<Option<Refusal>> {
            Ok(if caller > tables.members()? || (caller == 0 && !house) {
                Some(Refusal::NoCaller)
            } else if house && caller != 0 {
                Some(Refusal::HouseOnly)
            } else if moment < tables.clock()? {
                Some(Refusal::MomentBehind)
            } else {
                None
            })
        };
        macro_rules! common {
            ($house:expr) => {
                if let Some(refusal) = common(tables, $house)? {
                    return Ok(Err(Refused::Rule(refusal)));
                }
            };
        }
        Ok(Ok(match route {
            Route::Members => {
                let name = field!(fields.text("name"));
                common!(true);
                refuse!(!fits(name, 1, 40), Refusal::Range);
                refuse!(tables.has_member(name)?, Refusal::NameTaken);
                refuse!(tables.members()? >= 100_000, Refusal::Limit);
                Answer::text(
                    201,
                    format!(r#"{{"member":{}}}"#, tables.register(moment, name)?),
                )
            }
            Route::Categories => {
                let name = field!(fields.text("name"));
                common!(true);
                refuse!(!fits(name, 1, 40), Refusal::Range);
                refuse!(tables.has_category(name)?, Refusal::NameTaken);
                refuse!(tables.categories()? >= 1000, Refusal::Limit);
                Answer::text(
                    201,
                    format!(r#"{{"category":{}}}"#, tables.add_category(moment, name)?),
                )
            }
            Route::Items => {
                let category = field!(fields.number("category"));
                let lot = field!(fields.text("lot"));
                let title = field!(fields.text("title"));
                let text = field!(fields.text("text"));
                let start = field!(fields.number("start"));
                let buy_now = field!(fields.optional("buy_now"));
                let end = field!(fields.number("end"));
                common!(false);
                let code = lot.bytes().all(|b| b.is_ascii_alphanumeric() || b == b'-');
                refuse!(!code || !(1..=20).contains(&lot.len()), Refusal::Range);
                refuse!(tables.has_lot(caller, lot)?, Refusal::LotExists);
                let in_range = fits(title, 1, 80)
                    && fits(text, 0, 2000)
                    && (1..=MOST).contains(&start)
                    && buy_now.map_or(true, |b| (start..=MOST).contains(&b))
                    && end > moment
                    && end <= LAST;
                refuse!(!in_range, Refusal::Range);
                refuse!(
                    !(1..=tables.categories()?).contains(&category),
                    Refusal::Unknown
                );
                let number = tables.items()? + 1;
                refuse!(number > 1_000_000, Refusal::Limit);
                tables.list(
                    moment,
                    Item {
                        number,
                        seller: caller,
                        category,
                        start,
                        buy_now,
                        end,
                        lot: lot.into(),
                        title: title.into(),
                        text: text.into(),
                        state: State::Open,
                        closed: None,
                        standing: Standing {
                            price: start,
                            leader: None,
                            top: None,
                            second: None,
                            count: 0,
                        },
                    },
                )?;
                Answer::text(201, format!(r#"{{"item":{number}}}"#))
            }
            Route::Bids(number) => {
                let maximum = field!(fields.number("maximum"));
                common!(false);
                let Some(item) = self.tables.item(number)? else {
                    return Ok(Err(Refused::Rule(Refusal::Unknown)));
                };
                refuse!(item.seller == caller, Refusal::OwnItem);
                refuse!(item.state != State::Open, Refusal::NotOpen);
                refuse!(moment >= item.end, Refusal::Ended);
                refuse!(maximum > MOST, Refusal::Range);
                let now = item.standing;
                let leads = now.leader == Some(caller);
                refuse!(leads && Some(maximum) <= now.top, Refusal::NotHigher);
                let floor = now.floor(&self.bands);
                refuse!(!leads && maximum < floor, Refusal::Low(floor));
                refuse!(now.count >= 10_000, Refusal::Limit);
                let after = item
                    .standing
                    .place(&self.bands, item.start, caller, maximum);
                self.tables.bid(moment, number, after, caller, maximum)?;
                let Standing {
                    count,
                    leader,
                    price,
                    ..
                } = after;
                Answer::page(
                    201,
                    &BidPage {
                        count,
                        floor: after.floor(&self.bands),
                        leader,
                        price,
                    },
                )?
            }
            Route::Purchase(number) => {
                common!(false);
                let Some(item) = tables.item(number)? else {
                    return Ok(Err(Refused::Rule(Refusal::Unknown)));
                };
                refuse!(item.seller == caller, Refusal::OwnItem);
                refuse!(item.state != State::Open, Refusal::NotOpen);
                refuse!(moment >= item.end, Refusal::Ended);
                let Some(price) = item.buy_now else {
                    return Ok(Err(Refused::Rule(Refusal::NoBuyNow)));
                };
                refuse!(item.standing.count > 0, Refusal::HasBids);
                tables.buy(moment, number, caller, price)?;
                Answer::text(201, format!(r#"{{"item":{number},"price":{price}}}"#))
            }
            Route::Close => {
                common!(true);
                let (sold, unsold) = tables.close(moment)?;
                Answer::text(200, format!(r#"{{"sold":{sold},"unsold":{unsold}}}"#))
            }
            Route::Item(_) | Route::ItemsIn(..) | Route::Mine(_) => unreachable!("a read's path"),
        }))
    }
}

enum Refused {
    Rule(Refusal),
    Field(&'static str),
}

//! Pages in plain Rust, by `serde_json` and `derive`: `pages` reads the public record of a house, which is a line, and then orders,
//! each a line `COUNT STEPS WHAT`. So many times it makes from the rows of that record the page of an item (`item N`), a category's
//! items (`list C F`) or the record (`record`).
//!
//! STEPS says how far that goes: `held` writes the text of rows where they lie; `copied` copies the rows out first, which share
//! their texts; `answered` also copies the text into a buffer, behind the head of an answer; and `handed` also hands that on. At
//! the end it prints the last text, unless that was handed on.
use serde::{Deserialize, Deserializer, Serialize};
use std::borrow::Cow;
use std::collections::BTreeSet;
use std::fs::File;
use std::io::{self, BufRead, BufWriter, Write};
use std::os::fd::AsFd;
use std::rc::Rc;

type Outcome<T> = Result<T, Box<dyn std::error::Error>>;

/// How much is gathered before it is handed on, as ours does.
const ROOM: usize = 8_192;

#[derive(Clone, Copy, PartialEq, Serialize, Deserialize)]
#[serde(rename_all = "lowercase")]
enum State {
    Open,
    Sold,
    Unsold,
    Settled,
}

/// A text that copies of a row share.
fn shared<'de, D: Deserializer<'de>>(text: D) -> Result<Rc<str>, D::Error> {
    Ok(String::deserialize(text)?.into())
}

#[derive(Clone, Deserialize)]
struct Item {
    buy_now: Option<u64>,
    category: u64,
    closed: Option<u64>,
    count: u64,
    edition: u64,
    end: u64,
    item: u64,
    leader: Option<u64>,
    #[serde(deserialize_with = "shared")]
    lot: Rc<str>,
    met: Option<bool>,
    price: u64,
    seller: u64,
    start: u64,
    state: State,
    #[serde(deserialize_with = "shared")]
    text: Rc<str>,
    #[serde(deserialize_with = "shared")]
    title: Rc<str>,
}

// Keys in byte order.
#[derive(Serialize)]
struct ItemPage<'a> {
    buy_now: Option<u64>,
    category: u64,
    closed: Option<u64>,
    count: u64,
    edition: u64,
    end: u64,
    floor: Option<u64>,
    item: u64,
    leader: Option<u64>,
    lot: &'a str,
    met: Option<bool>,
    price: u64,
    seller: u64,
    start: u64,
    state: State,
    text: &'a str,
    title: &'a str,
}

#[derive(Serialize, Deserialize)]
struct Band {
    at: u64,
    step: u64,
}

#[derive(Serialize, Deserialize)]
struct Category {
    category: u64,
    name: String,
}

#[derive(Serialize, Deserialize)]
struct Edition {
    bands: Vec<Band>,
    edition: u64,
}

#[derive(Serialize, Deserialize)]
struct Feedback {
    from: u64,
    item: u64,
    rating: i64,
    text: String,
    to: u64,
}

#[derive(Serialize, Deserialize)]
struct Member {
    member: u64,
    name: String,
}

#[derive(Serialize, Deserialize)]
struct Question {
    answer: Option<String>,
    asker: u64,
    item: u64,
    number: u64,
    text: String,
}

#[derive(Deserialize)]
struct House {
    /// The number of each item after that of its category.
    #[serde(skip)]
    by_category: BTreeSet<(u64, u64)>,
    bands: Vec<Band>,
    categories: Vec<Category>,
    clock: u64,
    editions: Vec<Edition>,
    feedback: Vec<Feedback>,
    items: Vec<Item>,
    members: Vec<Member>,
    questions: Vec<Question>,
    rate: u64,
    zone: String,
}

#[derive(Serialize)]
struct List<'a> {
    items: Vec<ItemPage<'a>>,
}

#[derive(Serialize)]
struct Record<'a> {
    bands: &'a [Band],
    categories: &'a [Category],
    clock: u64,
    editions: &'a [Edition],
    feedback: &'a [Feedback],
    items: Vec<ItemPage<'a>>,
    members: &'a [Member],
    questions: &'a [Question],
    rate: u64,
    zone: &'a str,
}

impl House {
    fn floor(&self, item: &Item) -> Option<u64> {
        if item.state != State::Open {
            return None;
        }
        if item.count == 0 {
            return Some(item.start);
        }
        let after = self.bands.partition_point(|band| band.at <= item.price);
        Some(item.price + self.bands[after - 1].step)
    }

    fn page<'a>(&self, item: &'a Item) -> ItemPage<'a> {
        ItemPage {
            buy_now: item.buy_now,
            category: item.category,
            closed: item.closed,
            count: item.count,
            edition: item.edition,
            end: item.end,
            floor: self.floor(item),
            item: item.item,
            leader: item.leader,
            lot: &item.lot,
            met: item.met,
            price: item.price,
            seller: item.seller,
            start: item.start,
            state: item.state,
            text: &item.text,
            title: &item.title,
        }
    }

    /// The items of a category from a number on, at most fifty, as they lie.
    fn listed(&self, category: u64, from: u64) -> impl Iterator<Item = &Item> {
        let keys = self.by_category.range((category, from)..=(category, u64::MAX)).take(50);
        keys.map(|key| &self.items[key.1 as usize - 1])
    }

    fn list<'a>(&self, items: impl Iterator<Item = &'a Item>) -> List<'a> {
        List { items: items.map(|item| self.page(item)).collect() }
    }

    fn record<'a>(&'a self, items: &'a [Item]) -> Record<'a> {
        Record {
            bands: &self.bands,
            categories: &self.categories,
            clock: self.clock,
            editions: &self.editions,
            feedback: &self.feedback,
            items: items.iter().map(|item| self.page(item)).collect(),
            members: &self.members,
            questions: &self.questions,
            rate: self.rate,
            zone: &self.zone,
        }
    }
}

/// What is made.
#[derive(Clone, Copy)]
enum What {
    Item(u64),
    List(u64, u64),
    Record,
}

/// How far that goes.
#[derive(Clone, Copy, PartialEq, PartialOrd)]
enum Steps {
    Held,
    Copied,
    Answered,
    Handed,
}

/// How often what is made, and how far that goes.
fn order(line: &str) -> Outcome<(u64, Steps, What)> {
    let words: Vec<&str> = line.split(' ').collect();
    let steps = match words[1] {
        "held" => Steps::Held,
        "copied" => Steps::Copied,
        "answered" => Steps::Answered,
        "handed" => Steps::Handed,
        other => return Err(other.into()),
    };
    let what = match words[2..] {
        ["item", number] => What::Item(number.parse()?),
        ["list", category, from] => What::List(category.parse()?, from.parse()?),
        ["record"] => What::Record,
        _ => return Err(line.into()),
    };
    Ok((words[0].parse()?, steps, what))
}

/// Makes pages in buffers that it keeps.
struct Maker {
    house: House,
    text: Vec<u8>,
    answer: Vec<u8>,
    output: BufWriter<File>,
}

impl Maker {
    /// Makes a text, of copies of the rows or of the rows as they lie.
    fn write(&mut self, what: What, copies: bool) -> Outcome<()> {
        let house = &self.house;
        self.text.clear();
        match what {
            What::Item(number) => {
                let item = &house.items[number as usize - 1];
                let item = if copies { Cow::Owned(item.clone()) } else { Cow::Borrowed(item) };
                serde_json::to_writer(&mut self.text, &house.page(&item))?;
            }
            What::List(category, from) if copies => {
                let items: Vec<Item> = house.listed(category, from).cloned().collect();
                serde_json::to_writer(&mut self.text, &house.list(items.iter()))?;
            }
            What::List(category, from) => {
                serde_json::to_writer(&mut self.text, &house.list(house.listed(category, from)))?;
            }
            What::Record => {
                // Of a record each text has a buffer of its own, which grows.
                self.text = Vec::new();
                let items = if copies { Cow::Owned(house.items.clone()) } else { Cow::Borrowed(&house.items) };
                serde_json::to_writer(&mut self.text, &house.record(&items))?;
            }
        }
        Ok(())
    }

    /// Copies the text into an answer.
    fn reply(&mut self) -> io::Result<()> {
        self.answer.clear();
        let length = self.text.len();
        write!(self.answer, "HTTP/1.1 200 OK\r\ncontent-type: application/json\r\ncontent-length: {length}\r\n\r\n")?;
        self.answer.write_all(&self.text)
    }

    fn make(&mut self, steps: Steps, what: What) -> Outcome<()> {
        self.write(what, steps >= Steps::Copied)?;
        if steps >= Steps::Answered {
            self.reply()?;
        }
        if steps == Steps::Handed {
            self.output.write_all(&self.answer)?;
            self.text.clear();
        }
        Ok(())
    }
}

fn main() -> Outcome<()> {
    let mut input = io::stdin().lock();
    let mut record = Vec::new();
    input.read_until(b'\n', &mut record)?;
    let mut house: House = serde_json::from_slice(&record)?;
    house.by_category = house.items.iter().map(|item| (item.category, item.item)).collect();
    let output = BufWriter::with_capacity(ROOM, File::from(io::stdout().as_fd().try_clone_to_owned()?));
    let mut maker = Maker { house, text: Vec::new(), answer: Vec::new(), output };
    for line in input.lines() {
        let (count, steps, what) = order(&line?)?;
        for _ in 0..count {
            maker.make(steps, what)?;
        }
        maker.output.flush()?;
    }
    maker.output.write_all(&maker.text)?;
    maker.output.flush()?;
    Ok(())
}

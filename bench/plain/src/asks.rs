//! What a message asks, in plain Rust: the frame by the crate `httparse`, the route by a match on the path's segments, the
//! body by `serde_json` and `derive`. `asks frames N` reads the frame of the message on standard input N times, `asks asks N` also
//! what it asks. The sums are those of `frames N` and `repeat N` of the crate `test_messages`.
// What is read of a message isn't looked at in whole.
#![allow(dead_code)]

use serde::Deserialize;
use std::env;
use std::io::{self, Read};

const LAST_MOMENT: u64 = 4_102_444_800;

struct Request<'b> {
    method: &'b str,
    target: &'b str,
    body: &'b [u8],
    length: usize,
    // Of a field that stands exactly once.
    member: Option<&'b [u8]>,
    moment: Option<&'b [u8]>,
}

enum Fault {
    Head,
    Host,
    Transfer,
    Length,
    Size,
    End,
    Path,
    Method,
    Member,
    Moment,
    Json,
}

fn size(text: &[u8]) -> Option<usize> {
    if text.is_empty() || !text.iter().all(u8::is_ascii_digit) {
        return None;
    }
    Some(text.iter().fold(0usize, |n, d| n.saturating_mul(10).saturating_add(usize::from(d - b'0'))))
}

/// The message that a text is.
fn whole(text: &[u8]) -> Result<Request<'_>, Fault> {
    let mut fields = [httparse::EMPTY_HEADER; 64];
    let mut head = httparse::Request::new(&mut fields);
    let length = match head.parse(&text[..text.len().min(8192)]) {
        Ok(httparse::Status::Complete(length)) => length,
        _ => return Err(Fault::Head),
    };
    let (mut hosts, mut transfer, mut lengths, mut members, mut moments) = (0, false, 0, 0, 0);
    let (mut body, mut member, mut moment) = (Some(0), None, None);
    for field in head.headers.iter() {
        let is = |name: &str| field.name.eq_ignore_ascii_case(name);
        let value = field.value.trim_ascii();
        match field.name.len() {
            4 if is("host") => hosts += 1,
            8 if is("x-member") => (members, member) = (members + 1, Some(value)),
            8 if is("x-moment") => (moments, moment) = (moments + 1, Some(value)),
            14 if is("content-length") => (lengths, body) = (lengths + 1, size(value)),
            17 if is("transfer-encoding") => transfer = true,
            _ => {}
        }
    }
    if head.version == Some(1) && hosts != 1 {
        return Err(Fault::Host);
    }
    if transfer {
        return Err(Fault::Transfer);
    }
    let size = body.filter(|_| lengths < 2).ok_or(Fault::Length)?;
    if size > 16_384 {
        return Err(Fault::Size);
    }
    Ok(Request {
        method: head.method.unwrap_or(""),
        target: head.path.unwrap_or(""),
        body: text.get(length..length + size).ok_or(Fault::End)?,
        length: length + size,
        member: member.filter(|_| members == 1),
        moment: moment.filter(|_| moments == 1),
    })
}

enum Route<'b> {
    Members,
    Member(u64),
    FeedbackFor(u64, u64),
    Categories,
    ItemsIn(u64, u64),
    Items,
    Item(u64),
    Bids(u64),
    Purchase(u64),
    Settle(u64),
    Watch(u64),
    Unwatch(u64),
    Ask(u64),
    Published(u64, u64),
    Answer(u64, u64, u64),
    Feedback(u64),
    Close,
    House,
    Bands,
    OwnBids(u64),
    OwnReserves(u64),
    Watches,
    OwnQuestions(u64),
    Waiting,
    Statement(&'b str, &'b str),
}

fn number(text: &str) -> Option<u64> {
    let short = (1..=10).contains(&text.len()) && !text.starts_with('0');
    (short && text.bytes().all(|byte| byte.is_ascii_digit())).then(|| text.parse().ok())?
}

/// A path's route, and the methods that it has.
fn route(target: &str) -> Option<(Route<'_>, &'static [&'static str])> {
    use Route::*;
    let (mut parts, mut count) = ([""; 7], 0);
    for part in target.strip_prefix('/')?.split('/') {
        *parts.get_mut(count)? = part;
        count += 1;
    }
    Some(match parts[..count] {
        ["members"] => (Members, &["POST"]),
        ["members", m] => (Member(number(m)?), &["GET"]),
        ["members", m, "feedback", f] => (FeedbackFor(number(m)?, number(f)?), &["GET"]),
        ["categories"] => (Categories, &["GET", "POST"]),
        ["categories", c, "items", f] => (ItemsIn(number(c)?, number(f)?), &["GET"]),
        ["items"] => (Items, &["POST"]),
        ["items", i] => (Item(number(i)?), &["GET"]),
        ["items", i, "bids"] => (Bids(number(i)?), &["POST"]),
        ["items", i, "purchase"] => (Purchase(number(i)?), &["POST"]),
        ["items", i, "settle"] => (Settle(number(i)?), &["POST"]),
        ["items", i, "watch"] => (Watch(number(i)?), &["POST"]),
        ["items", i, "unwatch"] => (Unwatch(number(i)?), &["POST"]),
        ["items", i, "questions"] => (Ask(number(i)?), &["POST"]),
        ["items", i, "questions", f] => (Published(number(i)?, number(f)?), &["GET"]),
        ["items", i, "questions", a, n, "answer"] => (Answer(number(i)?, number(a)?, number(n)?), &["POST"]),
        ["items", i, "feedback"] => (Feedback(number(i)?), &["POST"]),
        ["close"] => (Close, &["POST"]),
        ["house"] => (House, &["GET"]),
        ["bands"] => (Bands, &["GET"]),
        ["me", "bids", f] => (OwnBids(number(f)?), &["GET"]),
        ["me", "reserves", f] => (OwnReserves(number(f)?), &["GET"]),
        ["me", "watches"] => (Watches, &["GET"]),
        ["me", "questions", f] => (OwnQuestions(number(f)?), &["GET"]),
        ["me", "waiting"] => (Waiting, &["GET"]),
        ["me", "statement", from, to] if !from.is_empty() && !to.is_empty() => (Statement(from, to), &["GET"]),
        _ => return None,
    })
}

#[derive(Deserialize)]
struct Bid {
    maximum: u64,
}

#[derive(Deserialize)]
struct Listing {
    category: u64,
    lot: String,
    title: String,
    text: String,
    start: u64,
    buy_now: Option<u64>,
    end: u64,
    reserve: Option<u64>,
}

#[derive(Deserialize)]
struct Named {
    name: String,
}

#[derive(Deserialize)]
struct Worded {
    text: String,
}

#[derive(Deserialize)]
struct Rated {
    rating: i64,
    text: String,
}

enum Command<'b> {
    Register(Named),
    AddCategory(Named),
    List(Listing),
    Bid(u64, Bid),
    Ask(u64, Worded),
    Answer(u64, u64, u64, Worded),
    Feedback(u64, Rated),
    // Of these the path says all.
    Other(Route<'b>),
}

enum Message<'b> {
    Order { caller: u64, moment: u64, command: Command<'b> },
    Read { caller: u64, route: Route<'b> },
}

fn head_number(value: Option<&[u8]>) -> Option<u64> {
    match std::str::from_utf8(value?).ok()? {
        "0" => Some(0),
        text => number(text),
    }
}

fn body<'b, T: Deserialize<'b>>(bytes: &'b [u8]) -> Result<T, Fault> {
    serde_json::from_slice(bytes).map_err(|_| Fault::Json)
}

fn command<'b>(route: Route<'b>, bytes: &'b [u8]) -> Result<Command<'b>, Fault> {
    Ok(match route {
        Route::Members => Command::Register(body(bytes)?),
        Route::Categories => Command::AddCategory(body(bytes)?),
        Route::Items => Command::List(body(bytes)?),
        Route::Bids(item) => Command::Bid(item, body(bytes)?),
        Route::Ask(item) => Command::Ask(item, body(bytes)?),
        Route::Answer(item, asker, number) => Command::Answer(item, asker, number, body(bytes)?),
        Route::Feedback(item) => Command::Feedback(item, body(bytes)?),
        other => Command::Other(other),
    })
}

fn asked<'b>(request: &Request<'b>) -> Result<Message<'b>, Fault> {
    let (route, methods) = route(request.target).ok_or(Fault::Path)?;
    if !methods.contains(&request.method) {
        return Err(Fault::Method);
    }
    let caller = head_number(request.member).ok_or(Fault::Member)?;
    if request.method == "GET" {
        return Ok(Message::Read { caller, route });
    }
    let moment = head_number(request.moment).filter(|moment| *moment <= LAST_MOMENT).ok_or(Fault::Moment)?;
    Ok(Message::Order { caller, moment, command: command(route, request.body)? })
}

// What is seen of a message that was read.
fn seen(message: &Message<'_>) -> u64 {
    let Message::Order { moment, command, .. } = message else { return 0 };
    moment
        + match command {
            Command::Bid(item, bid) => item + bid.maximum,
            Command::List(listing) => listing.category + listing.end,
            _ => 0,
        }
}

fn main() {
    let words: Vec<String> = env::args().collect();
    let mut text = Vec::new();
    io::stdin().read_to_end(&mut text).expect("a message");
    let asks = words[1] == "asks";
    let mut sum = 0;
    for _ in 0..words[2].parse().unwrap_or(0) {
        // Opaque, so that nothing is known of it when this is compiled.
        let Ok(request) = whole(std::hint::black_box(text.as_slice())) else { break };
        sum += request.length as u64;
        if asks {
            if let Ok(message) = asked(&request) {
                sum += seen(std::hint::black_box(&message));
            }
        }
    }
    println!("{sum}");
}

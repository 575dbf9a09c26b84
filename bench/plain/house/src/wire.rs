//! Messages in, answers out, by the rules of HTTP/1.1 that docs/HTTP.md has.

use crate::house::{Answer, House, Tables};
use std::io::{self, Read, Write};

const HEAD: usize = 8192;
const BODY: usize = 16384;
const FIELDS: usize = 64;

pub struct Request<'a> {
    pub method: &'a str,
    pub target: &'a str,
    /// The value of a field that stands exactly once.
    pub member: Option<&'a [u8]>,
    pub moment: Option<&'a [u8]>,
    pub body: &'a [u8],
    pub closes: bool,
    pub length: usize,
}

pub enum Look<'a> {
    Whole(Request<'a>),
    More,
    Clean,
    Fault(u16, &'static str),
}

/// A field value of digits; None where it holds anything else.
fn digits(text: &[u8]) -> Option<usize> {
    if text.is_empty() || !text.iter().all(u8::is_ascii_digit) {
        return None;
    }
    Some(text.iter().fold(0usize, |n, d| {
        n.saturating_mul(10).saturating_add((d - b'0') as usize)
    }))
}

pub fn look(held: &[u8], ended: bool) -> Look<'_> {
    if held.is_empty() && ended {
        return Look::Clean;
    }
    let mut fields = [httparse::EMPTY_HEADER; FIELDS];
    let mut head = httparse::Request::new(&mut fields);
    let size = match head.parse(&held[..held.len().min(HEAD)]) {
        Ok(httparse::Status::Complete(size)) => size,
        Ok(httparse::Status::Partial) if !ended && held.len() < HEAD => return Look::More,
        _ => return Look::Fault(400, "head"),
    };
    let (mut hosts, mut transfer, mut lengths) = (0, false, 0);
    let (mut members, mut moments) = (0, 0);
    let mut length = Some(0);
    let (mut member, mut moment) = (None, None);
    let old = head.version == Some(0);
    let mut closes = old;
    for field in head.headers.iter() {
        let value = field.value.trim_ascii();
        let is = |name: &str| field.name.eq_ignore_ascii_case(name);
        match field.name.len() {
            4 if is("host") => hosts += 1,
            8 if is("x-member") => (members, member) = (members + 1, Some(value)),
            8 if is("x-moment") => (moments, moment) = (moments + 1, Some(value)),
            10 if is("connection") => {
                closes |= value
                    .split(|b| *b == b',')
                    .any(|t| t.trim_ascii().eq_ignore_ascii_case(b"close"))
            }
            14 if is("content-length") => (lengths, length) = (lengths + 1, digits(value)),
            17 if is("transfer-encoding") => transfer = true,
            _ => {}
        }
    }
    if !old && hosts != 1 {
        return Look::Fault(400, "host");
    }
    if transfer {
        return Look::Fault(501, "transfer");
    }
    let Some(length) = length.filter(|_| lengths < 2) else {
        return Look::Fault(400, "length");
    };
    if length > BODY {
        return Look::Fault(413, "size");
    }
    let Some(body) = held.get(size..size + length) else {
        return if ended {
            Look::Fault(400, "end")
        } else {
            Look::More
        };
    };
    Look::Whole(Request {
        method: head.method.unwrap_or(""),
        target: head.path.unwrap_or(""),
        member: member.filter(|_| members == 1),
        moment: moment.filter(|_| moments == 1),
        body,
        closes,
        length: size + length,
    })
}

fn phrase(status: u16) -> &'static str {
    match status {
        200 => "OK",
        201 => "Created",
        400 => "Bad Request",
        403 => "Forbidden",
        404 => "Not Found",
        405 => "Method Not Allowed",
        409 => "Conflict",
        413 => "Content Too Large",
        501 => "Not Implemented",
        _ => "Internal Server Error",
    }
}

fn put(out: &mut Vec<u8>, answer: &Answer, closes: bool) -> io::Result<()> {
    write!(
        out,
        "HTTP/1.1 {} {}\r\ncontent-type: application/json\r\ncontent-length: {}\r\n",
        answer.status,
        phrase(answer.status),
        answer.body.len()
    )?;
    if let Some(allow) = answer.allow {
        write!(out, "allow: {allow}\r\n")?;
    }
    if closes {
        out.write_all(b"connection: close\r\n")?;
    }
    out.write_all(b"\r\n")?;
    out.write_all(&answer.body)
}

/// Answers at most `most` messages; those that stand in the buffer together are written together.
pub fn serve<T: Tables>(
    input: &mut impl Read,
    output: &mut impl Write,
    house: &mut House<T>,
    most: u64,
) -> io::Result<()> {
    let mut held = vec![0; 1 << 16];
    let (mut front, mut end, mut ended, mut count) = (0, 0, false, 0);
    let mut out = Vec::with_capacity(1 << 17);
    loop {
        let open = match look(&held[front..end], ended) {
            Look::Whole(request) => {
                put(&mut out, &house.answer(&request), request.closes)?;
                front += request.length;
                count += 1;
                !request.closes && count < most
            }
            Look::More => {
                output.write_all(&out)?;
                output.flush()?;
                out.clear();
                held.copy_within(front..end, 0);
                (front, end) = (0, end - front);
                let read = input.read(&mut held[end..])?;
                end += read;
                ended = read == 0;
                true
            }
            Look::Clean => false,
            Look::Fault(status, name) => {
                put(&mut out, &Answer::fault(status, name), true)?;
                false
            }
        };
        if !open || out.len() > 1 << 16 {
            output.write_all(&out)?;
            output.flush()?;
            out.clear();
        }
        if !open {
            return Ok(());
        }
    }
}

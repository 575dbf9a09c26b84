//! The wire as a plain Rust program over the crate `httparse`: the same rules on the same bytes.
use std::env;

const BID: &[u8] = b"POST /items/1/bids HTTP/1.1\r\nhost: h\r\nx-member: 2\r\nx-moment: 1001\r\ncontent-length: 15\r\n\r\n{\"maximum\":500}";
const BODY: &[u8] = b"{\"count\":1,\"floor\":550,\"leader\":2,\"price\":500}";
const ROOM: usize = 24576;
const AT_A_TIME: usize = 16;

struct Request<'b> {
    method: &'b [u8],
    target: &'b [u8],
    body: &'b [u8],
    closes: bool,
    length: usize,
    member: Option<&'b [u8]>,
    moment: Option<&'b [u8]>,
}

fn number(text: &[u8]) -> Option<usize> {
    if text.is_empty() {
        return None;
    }
    let mut n = 0usize;
    for b in text {
        if !b.is_ascii_digit() {
            return None;
        }
        n = (n * 10 + usize::from(b - b'0')).min(16385);
    }
    Some(n)
}

fn has_close(value: &[u8]) -> bool {
    value.split(|b| *b == b',').any(|t| t.trim_ascii().eq_ignore_ascii_case(b"close"))
}

/// The message at the front: `Ok(None)` where there is more to come, `Err` a fault's number.
fn front(held: &[u8]) -> Result<Option<Request<'_>>, u32> {
    let mut fields = [httparse::EMPTY_HEADER; 64];
    let mut head = httparse::Request::new(&mut fields);
    let length = match head.parse(held) {
        Ok(httparse::Status::Complete(n)) if n <= 8192 => n,
        Ok(httparse::Status::Partial) if held.len() < 8192 => return Ok(None),
        _ => return Err(1),
    };
    let old = head.version == Some(0);
    let (mut hosts, mut lengths, mut transfer, mut closes) = (0, 0, false, old);
    let (mut digits, mut member, mut moment): (&[u8], _, _) = (b"0", None, None);
    for field in head.headers.iter() {
        let name = field.name.as_bytes();
        if name.eq_ignore_ascii_case(b"host") {
            hosts += 1;
        } else if name.eq_ignore_ascii_case(b"transfer-encoding") {
            transfer = true;
        } else if name.eq_ignore_ascii_case(b"content-length") {
            lengths += 1;
            digits = field.value;
        } else if name.eq_ignore_ascii_case(b"connection") {
            closes |= has_close(field.value);
        } else if name.eq_ignore_ascii_case(b"x-member") {
            member = Some(field.value);
        } else if name.eq_ignore_ascii_case(b"x-moment") {
            moment = Some(field.value);
        }
    }
    if !old && hosts != 1 {
        return Err(2);
    }
    if transfer {
        return Err(3);
    }
    if lengths > 1 {
        return Err(4);
    }
    let size = number(digits).ok_or(4u32)?;
    if size > 16384 {
        return Err(5);
    }
    let after = &held[length..];
    if after.len() < size {
        return Ok(None);
    }
    Ok(Some(Request {
        method: head.method.unwrap_or("").as_bytes(),
        target: head.path.unwrap_or("").as_bytes(),
        body: &after[..size],
        closes,
        length: length + size,
        member,
        moment,
    }))
}

fn frames(rounds: u64, asks: bool) -> u64 {
    let mut block = Vec::new();
    for _ in 0..AT_A_TIME {
        block.extend_from_slice(BID);
    }
    let mut buffer = vec![0u8; ROOM];
    let (mut start, mut end, mut sum) = (0, 0, 0u64);
    for _ in 0..rounds {
        let mut rest = &block[..];
        while !rest.is_empty() {
            if end == ROOM {
                buffer.copy_within(start..end, 0);
                end -= start;
                start = 0;
            }
            let count = rest.len().min(ROOM - end);
            buffer[end..end + count].copy_from_slice(&rest[..count]);
            end += count;
            rest = &rest[count..];
            while let Ok(Some(request)) = front(&buffer[start..end]) {
                sum += (request.method.len() + request.target.len() + request.body.len()) as u64 + u64::from(request.closes);
                if asks {
                    sum += (request.member.map_or(0, <[u8]>::len) + request.moment.map_or(0, <[u8]>::len)) as u64;
                }
                start += request.length;
            }
        }
    }
    sum
}

fn answers(rounds: u64) -> u64 {
    let mut out: Vec<u8> = Vec::new();
    let mut sum = 0;
    for _ in 0..rounds {
        out.clear();
        for k in 0..AT_A_TIME {
            let body = &BODY[..BODY.len() - k % 2];
            out.reserve(body.len() + 192);
            out.extend_from_slice(b"HTTP/1.1 ");
            out.extend_from_slice(b"201");
            out.extend_from_slice(b" Created");
            out.extend_from_slice(b"\r\ncontent-type: application/json\r\ncontent-length: ");
            out.extend_from_slice(itoa::Buffer::new().format(body.len()).as_bytes());
            out.extend_from_slice(b"\r\n\r\n");
            out.extend_from_slice(body);
        }
        sum += out.len() as u64;
    }
    sum
}

fn main() {
    let words: Vec<String> = env::args().collect();
    let rounds = words[2].parse().unwrap();
    let sum = match words[1].as_str() {
        "frames" => frames(rounds, false),
        "asks" => frames(rounds, true),
        _ => answers(rounds),
    };
    println!("{sum}");
}

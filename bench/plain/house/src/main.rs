//! An auction house in plain Rust, over `httparse`, `serde_json` and `rusqlite`, which ours is
//! measured beside.
//!
//! It registers members, adds categories, lists items, takes bids and purchases, and closes. It shows
//! an item, the categories, the items of one, and the caller's bids; any other path is answered 404.
//! It has one band table and no reserves. With `--copies` its look-ups in memory hand out copies of
//! rows, as ours do, and not the rows as they lie.

mod house;
mod memory;
mod sqlite;
mod wire;

use house::{House, Item, Kept, Standing, State, Tables};
use memory::{Lying, Memory};
use std::io::{self, Write};
use std::net::TcpListener;
use std::rc::Rc;

const USAGE: &str = "house replay [--preset] [--copies] | serve FILE --port P --count N";

/// The house that `auction replay --preset` begins with.
fn preset(tables: &mut impl Tables) -> Kept<()> {
    for name in ["Ana", "Ben", "Cid"] {
        tables.register(1000, name)?;
    }
    tables.add_category(1000, "Books")?;
    tables.list(
        1000,
        Item {
            number: 1,
            seller: 1,
            category: 1,
            lot: "A1".into(),
            title: "Atlas".into(),
            text: "".into(),
            start: 500,
            buy_now: None,
            end: 5000,
            state: State::Open,
            closed: None,
            standing: Standing {
                price: 500,
                leader: None,
                top: None,
                second: None,
                count: 0,
            },
        },
    )
}

/// Answers standard input.
fn replay<T: Lying + Default>(has_preset: bool) -> Kept<()> {
    let mut tables = Memory::<T>::default();
    if has_preset {
        preset(&mut tables)?;
    }
    let mut house = House::new(tables);
    let (mut input, mut output) = (io::stdin().lock(), io::stdout().lock());
    Ok(wire::serve(&mut input, &mut output, &mut house, u64::MAX)?)
}

fn main() -> Kept<()> {
    let words: Vec<String> = std::env::args().skip(1).collect();
    let words: Vec<&str> = words.iter().map(String::as_str).collect();
    let option = |name: &str| {
        words
            .iter()
            .position(|w| *w == name)
            .and_then(|n| words.get(n + 1))
            .copied()
    };
    match words[..] {
        ["replay", ref rest @ ..] => {
            let has_preset = rest.contains(&"--preset");
            if rest.contains(&"--copies") {
                replay::<Rc<str>>(has_preset)?;
            } else {
                replay::<String>(has_preset)?;
            }
        }
        ["serve", file, ..] => {
            let port: u16 = option("--port").ok_or(USAGE)?.parse()?;
            let count: u64 = option("--count").ok_or(USAGE)?.parse()?;
            let mut house = House::new(sqlite::Sqlite::open(file)?);
            let listener = TcpListener::bind(("127.0.0.1", port))?;
            println!("listening");
            io::stdout().flush()?;
            for _ in 0..count {
                let (stream, _) = listener.accept()?;
                stream.set_nodelay(true)?;
                let _ = wire::serve(&mut &stream, &mut &stream, &mut house, 10_000);
            }
            println!("served {count}");
        }
        _ => return Err(USAGE.into()),
    }
    Ok(())
}

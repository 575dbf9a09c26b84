//! The tables in an SQLite file, one transaction a command.

use crate::house::*;
use rusqlite::{params, Connection, OptionalExtension, Params, Row};
use std::borrow::Cow;

const SCHEMA: &str = "
    create table if not exists house (id integer primary key, version int not null, clock int not null,
        rate int not null, zone text not null);
    insert or ignore into house values (1, 1, 0, 1000, 'UTC0');
    create table if not exists band (at integer primary key, step int not null);
    create table if not exists member (id integer primary key, name text not null unique);
    create table if not exists category (id integer primary key, name text not null unique);
    create table if not exists item (id integer primary key, seller int not null references member,
        category int not null references category, lot text not null, title text not null,
        body text not null, start int not null, buy_now int, ending int not null, state int not null,
        closed int, price int not null, leader int references member, top int, second int,
        count int not null, unique (seller, lot));
    create index if not exists item_category on item (category, id);
    create index if not exists item_due on item (ending) where state = 0;
    create table if not exists bid (item int not null references item, no int not null,
        member int not null references member, maximum int not null, primary key (item, no)) without rowid;
    create index if not exists bid_member on bid (member, item, maximum);";
const ITEM: &str =
    "select id, seller, category, lot, title, body, start, buy_now, ending, state, closed,
    price, leader, top, second, count from item";

pub struct Sqlite(Connection);

impl Sqlite {
    pub fn open(file: &str) -> Kept<Sqlite> {
        let base = Connection::open(file)?;
        base.set_prepared_statement_cache_capacity(64);
        base.pragma_update(None, "journal_mode", "wal")?;
        base.pragma_update(None, "synchronous", "full")?;
        base.pragma_update(None, "foreign_keys", true)?;
        base.execute_batch(SCHEMA)?;
        for (at, step) in BANDS {
            base.execute("insert or ignore into band values (?, ?)", (at, step))?;
        }
        Ok(Sqlite(base))
    }
    fn run(&self, sql: &str, with: impl Params) -> Kept<usize> {
        Ok(self.0.prepare_cached(sql)?.execute(with)?)
    }
    fn one(&self, sql: &str, with: impl Params) -> Kept<u64> {
        Ok(self
            .0
            .prepare_cached(sql)?
            .query_row(with, |row| row.get(0))?)
    }
    fn any(&self, sql: &str, with: impl Params) -> Kept<bool> {
        Ok(self.0.prepare_cached(sql)?.exists(with)?)
    }
    fn list<T>(
        &self,
        sql: &str,
        with: impl Params,
        row: fn(&Row) -> rusqlite::Result<T>,
    ) -> Kept<Vec<T>> {
        Ok(self
            .0
            .prepare_cached(sql)?
            .query_map(with, row)?
            .collect::<Result<_, _>>()?)
    }
    fn tick(&self, moment: u64) -> Kept<()> {
        self.run("update house set clock = ?", [moment])?;
        Ok(())
    }
}

fn state(number: u64) -> State {
    match number {
        0 => State::Open,
        1 => State::Sold,
        _ => State::Unsold,
    }
}

fn item(row: &Row) -> rusqlite::Result<Cow<'static, Item<String>>> {
    Ok(Cow::Owned(Item {
        number: row.get(0)?,
        seller: row.get(1)?,
        category: row.get(2)?,
        lot: row.get(3)?,
        title: row.get(4)?,
        text: row.get(5)?,
        start: row.get(6)?,
        buy_now: row.get(7)?,
        end: row.get(8)?,
        state: state(row.get(9)?),
        closed: row.get(10)?,
        standing: Standing {
            price: row.get(11)?,
            leader: row.get(12)?,
            top: row.get(13)?,
            second: row.get(14)?,
            count: row.get(15)?,
        },
    }))
}

impl Tables for Sqlite {
    type Text = String;

    fn begin(&mut self) -> Kept<()> {
        self.run("begin immediate", [])?;
        Ok(())
    }
    fn finish(&mut self, keep: bool) -> Kept<()> {
        self.run(if keep { "commit" } else { "rollback" }, [])?;
        Ok(())
    }
    fn clock(&self) -> Kept<u64> {
        self.one("select clock from house", [])
    }
    fn members(&self) -> Kept<u64> {
        self.one("select ifnull(max(id), 0) from member", [])
    }
    fn categories(&self) -> Kept<u64> {
        self.one("select ifnull(max(id), 0) from category", [])
    }
    fn items(&self) -> Kept<u64> {
        self.one("select ifnull(max(id), 0) from item", [])
    }
    fn has_member(&self, name: &str) -> Kept<bool> {
        self.any("select 1 from member where name = ?", [name])
    }
    fn has_category(&self, name: &str) -> Kept<bool> {
        self.any("select 1 from category where name = ?", [name])
    }
    fn has_lot(&self, seller: u64, lot: &str) -> Kept<bool> {
        self.any(
            "select 1 from item where seller = ? and lot = ?",
            params![seller, lot],
        )
    }
    fn item(&self, number: u64) -> Kept<Option<Cow<'_, Item<String>>>> {
        let sql = format!("{ITEM} where id = ?");
        Ok(self
            .0
            .prepare_cached(&sql)?
            .query_row([number], item)
            .optional()?)
    }
    fn all_categories(&self) -> Kept<Vec<Category>> {
        self.list("select id, name from category order by id", [], |row| {
            Ok(Category {
                category: row.get(0)?,
                name: row.get(1)?,
            })
        })
    }
    fn items_in(&self, category: u64, from: u64) -> Kept<Vec<Cow<'_, Item<String>>>> {
        let sql = format!("{ITEM} where category = ? and id >= ? order by id limit 50");
        self.list(&sql, [category, from], item)
    }
    fn bids_of(&self, member: u64, from: u64) -> Kept<Vec<Mine>> {
        self.list(
            "select b.item, i.leader is b.member, max(b.maximum), count(*), i.price, i.state
             from bid b join item i on i.id = b.item where b.member = ? and b.item >= ?
             group by b.item order by b.item limit 50",
            [member, from],
            |row| {
                Ok(Mine {
                    item: row.get(0)?,
                    leading: row.get(1)?,
                    maximum: row.get(2)?,
                    mine: row.get(3)?,
                    price: row.get(4)?,
                    state: state(row.get(5)?),
                })
            },
        )
    }
    fn register(&mut self, moment: u64, name: &str) -> Kept<u64> {
        self.tick(moment)?;
        self.run("insert into member (name) values (?)", [name])?;
        Ok(self.0.last_insert_rowid() as u64)
    }
    fn add_category(&mut self, moment: u64, name: &str) -> Kept<u64> {
        self.tick(moment)?;
        self.run("insert into category (name) values (?)", [name])?;
        Ok(self.0.last_insert_rowid() as u64)
    }
    fn list(&mut self, moment: u64, item: Item<String>) -> Kept<()> {
        self.tick(moment)?;
        self.run(
            "insert into item values (?,?,?,?,?,?,?,?,?,0,null,?,null,null,null,0)",
            params![
                item.number,
                item.seller,
                item.category,
                item.lot,
                item.title,
                item.text,
                item.start,
                item.buy_now,
                item.end,
                item.standing.price
            ],
        )?;
        Ok(())
    }
    fn bid(
        &mut self,
        moment: u64,
        item: u64,
        after: Standing,
        member: u64,
        maximum: u64,
    ) -> Kept<()> {
        self.tick(moment)?;
        self.run(
            "insert into bid values (?, ?, ?, ?)",
            [item, after.count, member, maximum],
        )?;
        self.run(
            "update item set price = ?, leader = ?, top = ?, second = ?, count = ? where id = ?",
            params![
                after.price,
                after.leader,
                after.top,
                after.second,
                after.count,
                item
            ],
        )?;
        Ok(())
    }
    fn buy(&mut self, moment: u64, item: u64, member: u64, price: u64) -> Kept<()> {
        self.tick(moment)?;
        self.run(
            "update item set state = 1, closed = ?, price = ?, leader = ? where id = ?",
            [moment, price, member, item],
        )?;
        Ok(())
    }
    fn close(&mut self, moment: u64) -> Kept<(u64, u64)> {
        self.tick(moment)?;
        let set = |sql| self.run(sql, [moment]).map(|rows| rows as u64);
        Ok((
            set("update item set state = 1, closed = ending
                where state = 0 and ending <= ? and leader is not null")?,
            set("update item set state = 2, closed = ending
                where state = 0 and ending <= ? and leader is null")?,
        ))
    }
}

//! The tables in memory.

use crate::house::*;
use std::borrow::Cow;
use std::collections::{BTreeMap, BTreeSet, HashMap, HashSet};
use std::rc::Rc;

/// How a row lies in memory, by what holds its texts, and how a look-up hands it out.
pub trait Lying: Text {
    fn found(item: &Item<Self>) -> Cow<'_, Item<Self>>;
}

/// A row that holds its texts is lent.
impl Lying for String {
    fn found(item: &Item<String>) -> Cow<'_, Item<String>> {
        Cow::Borrowed(item)
    }
}

/// A row that shares its texts is copied, as ours are.
impl Lying for Rc<str> {
    fn found(item: &Item<Rc<str>>) -> Cow<'_, Item<Rc<str>>> {
        Cow::Owned(item.clone())
    }
}

#[derive(Default)]
pub struct Memory<T> {
    clock: u64,
    members: HashSet<String>,
    categories: Vec<String>,
    category_names: HashSet<String>,
    items: Vec<Item<T>>,
    lots: HashMap<u64, HashSet<String>>,
    in_category: BTreeSet<(u64, u64)>,
    /// Open items by end.
    open: BTreeSet<(u64, u64)>,
    /// Member and maximum of each bid of an item, in order.
    bids: HashMap<u64, Vec<(u64, u64)>>,
    /// Greatest maximum and number of bids, by member and item.
    best: BTreeMap<(u64, u64), (u64, u64)>,
}

impl<T> Memory<T> {
    fn row(&mut self, number: u64) -> &mut Item<T> {
        &mut self.items[number as usize - 1]
    }
}

impl<T: Lying> Tables for Memory<T> {
    type Text = T;

    fn clock(&self) -> Kept<u64> {
        Ok(self.clock)
    }
    fn members(&self) -> Kept<u64> {
        Ok(self.members.len() as u64)
    }
    fn categories(&self) -> Kept<u64> {
        Ok(self.categories.len() as u64)
    }
    fn items(&self) -> Kept<u64> {
        Ok(self.items.len() as u64)
    }
    fn has_member(&self, name: &str) -> Kept<bool> {
        Ok(self.members.contains(name))
    }
    fn has_category(&self, name: &str) -> Kept<bool> {
        Ok(self.category_names.contains(name))
    }
    fn has_lot(&self, seller: u64, lot: &str) -> Kept<bool> {
        Ok(self
            .lots
            .get(&seller)
            .is_some_and(|lots| lots.contains(lot)))
    }
    fn item(&self, number: u64) -> Kept<Option<Cow<'_, Item<T>>>> {
        Ok(self
            .items
            .get((number as usize).wrapping_sub(1))
            .map(T::found))
    }
    fn all_categories(&self) -> Kept<Vec<Category>> {
        let category = |(n, name): (usize, &String)| Category {
            category: n as u64 + 1,
            name: name.clone(),
        };
        Ok(self.categories.iter().enumerate().map(category).collect())
    }
    fn items_in(&self, category: u64, from: u64) -> Kept<Vec<Cow<'_, Item<T>>>> {
        let keys = self
            .in_category
            .range((category, from)..=(category, u64::MAX));
        Ok(keys
            .take(PAGE)
            .map(|key| T::found(&self.items[key.1 as usize - 1]))
            .collect())
    }
    fn bids_of(&self, member: u64, from: u64) -> Kept<Vec<Mine>> {
        let rows = self
            .best
            .range((member, from)..=(member, u64::MAX))
            .take(PAGE);
        let mine = |(key, best): (&(u64, u64), &(u64, u64))| {
            let item = &self.items[key.1 as usize - 1];
            Mine {
                item: key.1,
                leading: item.standing.leader == Some(member),
                maximum: best.0,
                mine: best.1,
                price: item.standing.price,
                state: item.state,
            }
        };
        Ok(rows.map(mine).collect())
    }
    fn register(&mut self, moment: u64, name: &str) -> Kept<u64> {
        self.clock = moment;
        self.members.insert(name.into());
        Ok(self.members.len() as u64)
    }
    fn add_category(&mut self, moment: u64, name: &str) -> Kept<u64> {
        self.clock = moment;
        self.category_names.insert(name.into());
        self.categories.push(name.into());
        Ok(self.categories.len() as u64)
    }
    fn list(&mut self, moment: u64, item: Item<T>) -> Kept<()> {
        self.clock = moment;
        self.lots
            .entry(item.seller)
            .or_default()
            .insert(item.lot.to_string());
        self.in_category.insert((item.category, item.number));
        self.open.insert((item.end, item.number));
        self.items.push(item);
        Ok(())
    }
    fn bid(
        &mut self,
        moment: u64,
        item: u64,
        after: Standing,
        member: u64,
        maximum: u64,
    ) -> Kept<()> {
        self.clock = moment;
        self.bids.entry(item).or_default().push((member, maximum));
        let best = self.best.entry((member, item)).or_default();
        *best = (best.0.max(maximum), best.1 + 1);
        self.row(item).standing = after;
        Ok(())
    }
    fn buy(&mut self, moment: u64, item: u64, member: u64, price: u64) -> Kept<()> {
        self.clock = moment;
        let row = self.row(item);
        (row.state, row.closed) = (State::Sold, Some(moment));
        (row.standing.price, row.standing.leader) = (price, Some(member));
        let end = row.end;
        self.open.remove(&(end, item));
        Ok(())
    }
    fn close(&mut self, moment: u64) -> Kept<(u64, u64)> {
        self.clock = moment;
        let (mut sold, mut unsold) = (0, 0);
        while let Some(&(end, item)) = self.open.first().filter(|due| due.0 <= moment) {
            self.open.pop_first();
            let row = self.row(item);
            row.closed = Some(end);
            if row.standing.leader.is_some() {
                row.state = State::Sold;
                sold += 1;
            } else {
                row.state = State::Unsold;
                unsold += 1;
            }
        }
        Ok((sold, unsold))
    }
}

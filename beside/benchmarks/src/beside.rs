//! The calls beside slotmap's: one line for each.
use oracle::slotmap::{DefaultKey, DenseSlotMap, HopSlotMap, SlotMap};

use crate::fixed::{Fixed, ROWS};
use crate::maps::{Kept, Ours, Pair};
use crate::others::{rebuild_round, straight_round, walk_round};
use crate::rounds::{round, Contest, Round, Stop, Work};
use crate::works::{Clear, Drain, Get, Insert, InsertFresh, Remove, RemoveInsert, Replace, Retain, Walk};

type Hop = HopSlotMap<DefaultKey, oracle::Row>;
type Basic = SlotMap<DefaultKey, oracle::Row>;
type Dense = DenseSlotMap<DefaultKey, oracle::Row>;

/// What a line is about; what is said of the largest ratio depends on it.
#[derive(Clone, Copy, Debug, PartialEq, Eq)]
pub enum Call {
    Insert,
    Remove,
    Pair,
    Get,
    Replace,
    Drain,
    Retain,
    Clear,
    Rebuild,
    Walk,
}

/// Nanoseconds: ours, and slotmap's three maps where they are compared.
pub struct Line {
    pub call: Call,
    pub name: String,
    pub per: &'static str,
    pub ours: f64,
    pub slotmaps: Option<Slotmaps>,
}

#[derive(Clone, Copy)]
pub struct Slotmaps {
    pub hop: f64,
    pub basic: f64,
    pub dense: f64,
}

impl Line {
    /// Ours to the original.
    pub fn ratio(&self) -> Option<f64> {
        self.slotmaps.map(|slotmaps| self.ours / slotmaps.hop)
    }
}

/// A contest that makes a line for each of our contestants; these come first.
pub struct Entry {
    call: Call,
    names: Vec<String>,
    per: &'static str,
    each: usize,
    pub contest: Contest,
}

impl Entry {
    /// The original comes after ours, and hands out the same keys.
    fn new(call: Call, names: Vec<String>, per: &'static str, each: usize, rounds: Vec<Round>) -> Self {
        let contest = Contest::new(rounds, names.len() + 1);
        Entry { call, names, per, each, contest }
    }

    pub fn lines(&self) -> Vec<Line> {
        let figures = self.contest.nanoseconds(self.each);
        let (ours, theirs) = figures.split_at(self.names.len());
        let line = |(name, &ours): (&String, _)| Line { call: self.call, name: name.clone(), per: self.per, ours, slotmaps: slotmaps(theirs) };
        self.names.iter().zip(ours).map(line).collect()
    }
}

/// A round for each of four maps, ours and the original first.
fn four(work: impl Work, fixed: &'static Fixed) -> Result<Vec<Round>, Stop> {
    fn of<K: Kept>(work: impl Work, fixed: &'static Fixed) -> Result<Round, Stop> {
        Ok(round::<K>(work, fixed)?)
    }
    Ok(vec![of::<Ours>(work, fixed)?, of::<Pair<Hop>>(work, fixed)?, of::<Pair<Basic>>(work, fixed)?, of::<Pair<Dense>>(work, fixed)?])
}

fn slotmaps(figures: &[f64]) -> Option<Slotmaps> {
    match *figures {
        [hop, basic, dense] => Some(Slotmaps { hop, basic, dense }),
        _ => None,
    }
}

fn entry(call: Call, name: &str, per: &'static str, work: impl Work, fixed: &'static Fixed) -> Result<Entry, Stop> {
    Ok(Entry::new(call, vec![name.to_string()], per, ROWS, four(work, fixed)?))
}

/// From Rust, and in C; both stand beside the same walks of slotmap's.
fn walk_entry(one_in: usize, fixed: &'static Fixed) -> Result<Entry, Stop> {
    let walk = Walk(one_in);
    let mut rounds = four(walk, fixed)?;
    rounds.insert(1, walk_round(walk, fixed)?);
    let names = ["from Rust", "loop in C"].map(|how| format!("walk, 1 in {one_in} live, {how}"));
    Ok(Entry::new(Call::Walk, names.into(), "row", walk.live() * walk.walks(), rounds))
}

/// Without serde there is nothing to compare with.
fn rebuild_entry(fixed: &'static Fixed) -> Result<Entry, Stop> {
    let mut rounds = vec![rebuild_round(fixed)?];
    if oracle::REBUILDS {
        rounds.extend([straight_round::<Hop>(fixed)?, straight_round::<Basic>(fixed)?, straight_round::<Dense>(fixed)?]);
    }
    Ok(Entry::new(Call::Rebuild, vec!["rebuild, half live (a)".to_string()], "slot", ROWS, rounds))
}

pub fn entries(fixed: &'static Fixed) -> Result<Vec<Entry>, Stop> {
    Ok(vec![
        entry(Call::Insert, "insert, where rows were before", "call", Insert, fixed)?,
        entry(Call::Insert, "insert, into a fresh map", "call", InsertFresh, fixed)?,
        entry(Call::Remove, "remove", "call", Remove, fixed)?,
        entry(Call::Pair, "remove one, insert one", "pair", RemoveInsert, fixed)?,
        entry(Call::Get, "get", "call", Get, fixed)?,
        entry(Call::Replace, "replace", "call", Replace, fixed)?,
        entry(Call::Drain, "drain", "row", Drain, fixed)?,
        entry(Call::Retain, "retain, half kept", "slot", Retain, fixed)?,
        entry(Call::Clear, "clear", "slot", Clear, fixed)?,
        rebuild_entry(fixed)?,
        walk_entry(2, fixed)?,
        walk_entry(10, fixed)?,
        walk_entry(100, fixed)?,
    ])
}

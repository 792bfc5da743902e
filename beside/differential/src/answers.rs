//! The lines of the fixed list as the original answers them. What it has no answer for is told as document 01 has it: 5 for an insert at a full
//! table, 4 for a key at which it finds nothing, 3 for an even version, which it cannot be asked about. A hop step is the next key of its walk, room
//! is reckoned from its count. What it cannot even be asked has no answer here.
use oracle::{Key, Shown, Words};

use crate::list::{self, from, row_told, with_header};
use crate::originals::{Answer, Call, Originals};

/// What a line gives.
pub enum Told {
    /// A comment or a setting.
    Nothing,
    Answer(String),
    /// The original cannot be asked.
    Unanswered,
}

pub struct Answers {
    map: Option<Originals>,
    shown: Shown,
    /// Slots lent.
    lent: usize,
    /// Versions and rows as lines have set them, for a rebuild.
    set: Vec<(u32, Words)>,
    /// Whether the parting has come.
    pub parted: bool,
}

fn row(first: u32) -> Words {
    from(first, hop::ROW_WORDS).try_into().unwrap()
}

/// The number of a key at which nothing is found.
fn refused((_, version): Key) -> String {
    format!("refused {}", if version.is_multiple_of(2) { 3 } else { 4 })
}

impl Answers {
    pub fn new() -> Self {
        Answers { map: None, shown: Shown::default(), lent: 0, set: Vec::new(), parted: false }
    }

    /// The live keys, in the order of a walk.
    pub fn live(&self) -> Vec<Key> {
        self.map.iter().flat_map(Originals::walk).map(|(key, _)| key).collect()
    }

    pub fn used(&mut self) -> usize {
        self.shown.slots.clear();
        if let Some(map) = &self.map {
            map.show(&mut self.shown);
        }
        self.shown.slots.len()
    }

    pub fn answer(&mut self, line: &str) -> Result<Told, String> {
        let Some((name, numbers)) = list::read(line)? else { return Ok(Told::Nothing) };
        if self.setting(name, &numbers) {
            return Ok(Told::Nothing);
        }
        let Some(said) = self.call(name, &numbers)? else { return Ok(Told::Unanswered) };
        if name == "show" {
            return Ok(Told::Answer(said));
        }
        let used = self.used() as u32;
        Ok(Told::Answer(with_header(&said, used, self.shown.live)))
    }

    fn setting(&mut self, name: &str, numbers: &[u32]) -> bool {
        match (name, numbers) {
            ("lend", [links, rows]) => {
                let slots = *links as usize / hop::LINK_WORDS;
                let fits =
                    (1..=hop::LIMIT).contains(&slots) && slots * hop::LINK_WORDS == *links as usize && slots * hop::ROW_WORDS == *rows as usize;
                (self.lent, self.parted) = (if fits { slots } else { 0 }, false);
                self.set = vec![(list::FILL, [list::FILL; hop::ROW_WORDS]); self.lent];
            }
            ("links", [slot, version, ..]) => self.set.get_mut(*slot as usize).into_iter().for_each(|set| set.0 = *version),
            ("row", [slot, first]) => self.set.get_mut(*slot as usize).into_iter().for_each(|set| set.1 = row(*first)),
            ("header", _) => {}
            _ => return false,
        }
        // Words that a line sets are none of the original's.
        self.map = None;
        true
    }

    fn call(&mut self, name: &str, numbers: &[u32]) -> Result<Option<String>, String> {
        match (name, numbers) {
            ("start", []) if self.lent > 0 => self.map = Some(Originals::fresh()),
            ("rebuild", presence) if (1..=self.lent).contains(&presence.len()) && presence.iter().all(|byte| *byte <= 1) => {
                let slots: Vec<_> = self.set.iter().zip(presence).map(|((version, row), byte)| (*version, (*byte == 1).then_some(*row))).collect();
                let Ok(map) = Originals::rebuilt(&slots) else { return Ok(None) };
                self.map = Some(map);
            }
            _ if self.map.is_none() => return Ok(None),
            ("show", []) => return Ok(Some(self.show())),
            ("hop_step", [cursor]) => return Ok(self.hop_step(*cursor)),
            ("room", []) => return Ok(Some(format!("count {}", self.lent - self.live().len()))),
            // The original has no check: its own table is sound.
            ("sound", []) => {}
            ("look", [index, version]) => {
                return Ok(Some(self.get((*index, *version)).map_or_else(|| refused((*index, *version)), |row| row_told((*index, *version), &row))))
            }
            ("key_number", [index, version]) => {
                return Ok(Some(self.get((*index, *version)).map_or_else(|| refused((*index, *version)), |_| "done".to_string())))
            }
            _ => return self.change(name, numbers),
        }
        Ok(Some("done".to_string()))
    }

    /// An even version would become odd in the original: it is not asked.
    fn get(&self, key: Key) -> Option<Words> {
        if key.1.is_multiple_of(2) {
            return None;
        }
        self.map.as_ref()?.get(key)
    }

    fn change(&mut self, name: &str, numbers: &[u32]) -> Result<Option<String>, String> {
        let (key, full) = (numbers.first().copied().zip(numbers.get(1).copied()), self.live().len() + 1 == self.lent);
        let call = match (name, numbers) {
            ("insert", [_, 8]) if full => return Ok(Some("refused 5".to_string())),
            ("insert", [first, 8]) => Call::Insert(row(*first)),
            ("remove", [index, version]) => Call::Remove((*index, *version)),
            ("look_mut", [index, version, first]) => Call::Write((*index, *version), row(*first)),
            ("replace", [index, version, first, 8]) => Call::Replace((*index, *version), row(*first)),
            ("drain_step", []) => Call::DrainStep,
            ("clear", []) => Call::Clear,
            ("retain", keep) if keep.len() == self.used() => Call::Retain(keep.iter().map(|byte| *byte as u8 != 0).collect()),
            _ => return Ok(None),
        };
        if let (Some(key), Call::Remove(_) | Call::Write(..) | Call::Replace(..)) = (key, &call) {
            if self.get(key).is_none() {
                return Ok(Some(refused(key)));
            }
        }
        let Some(map) = &mut self.map else { return Ok(None) };
        self.parted |= map.part(&call, &mut self.shown);
        Ok(Some(match (map.make(&call)?, key) {
            (Answer::Inserted((index, version)), _) => format!("key {index} {version}"),
            (Answer::Removed(Some(row)), Some(key)) => row_told(key, &row),
            (Answer::Drained(gone), _) => gone.first().map_or_else(|| "done".to_string(), |(key, row)| row_told(*key, row)),
            (Answer::Retained(gone, _), _) => format!("count {gone}"),
            (Answer::Written(true), _) | (Answer::Cleared, _) => "done".to_string(),
            (other, _) => return Err(format!("{name} answers {other:?}")),
        }))
    }

    /// The next key of a walk. A cursor inside a run is one that no walk of the original has.
    fn hop_step(&mut self, cursor: u32) -> Option<String> {
        let used = self.used();
        let vacant = |slot: usize| self.shown.slots.get(slot).is_some_and(|s| s.version.is_multiple_of(2));
        let place = cursor as usize;
        if place > 0 && place < used && vacant(place) && vacant(place - 1) {
            return None;
        }
        let next = self.live().into_iter().find(|(index, _)| *index >= cursor);
        Some(next.map_or_else(|| "done".to_string(), |(index, version)| format!("visit {index} {version} {}", index + 1)))
    }

    fn show(&mut self) -> String {
        self.used();
        let rows: Vec<_> = self.map.iter().flat_map(Originals::walk).collect();
        let slot = |(number, slot): (usize, &oracle::Slot)| list::SlotWords {
            links: [slot.version, slot.next, slot.prev, slot.other_end],
            row: rows.iter().find(|(key, _)| key.0 as usize == number).map_or([0; 8], |(_, row)| *row),
        };
        list::show_told(&self.shown.slots.iter().enumerate().map(slot).collect::<Vec<_>>())
    }
}

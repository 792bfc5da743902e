//! The fixed list, whose language is docs/LIST.md: played over the archive, every answer compared, and nothing changed by a refused call.
use hop::{calls, Header, HopSlotMap, Key, LINK_WORDS, ROW_WORDS};

use crate::tables::Tables;
use crate::tally::{Kind, Tally};

/// What every word is before anything is set.
pub const FILL: u32 = 3_735_928_559;

/// Between a line and its answer.
pub const GIVES: &str = " => ";

/// Words from one on, each one more than the last.
pub fn from(first: u32, words: usize) -> Vec<u32> {
    (0..words as u32).map(|more| first.wrapping_add(more)).collect()
}

/// The first word of a line and its numbers; of a comment nothing.
pub fn read(line: &str) -> Result<Option<(&str, Vec<u32>)>, String> {
    let mut words = line.split(' ');
    let name = words.next().unwrap_or_default();
    if name.is_empty() || name.starts_with('#') {
        return Ok(None);
    }
    let numbers = words.map(|word| word.parse().map_err(|_| format!("'{word}' is no number"))).collect::<Result<_, _>>()?;
    Ok(Some((name, numbers)))
}

fn spaced(words: &[u32]) -> String {
    words.iter().map(|word| format!(" {word}")).collect()
}

/// The words of a slot, for `show`.
pub struct SlotWords {
    pub links: [u32; LINK_WORDS],
    pub row: [u32; ROW_WORDS],
}

/// What `show` answers.
pub fn show_told(slots: &[SlotWords]) -> String {
    let vacant = |slot: usize| slots.get(slot).is_some_and(|s| s.links[0].is_multiple_of(2));
    let told = |(slot, s): (usize, &SlotWords)| {
        let [version, next, prev, other_end] = s.links;
        let (front, back) = (slot == 0 || !vacant(slot - 1), !vacant(slot + 1));
        let more = match (vacant(slot), front, back) {
            (false, _, _) => spaced(&s.row),
            (true, true, _) => spaced(&[next, prev, other_end]),
            (true, false, true) => spaced(&[other_end]),
            (true, false, false) => String::new(),
        };
        format!("{version}{more}")
    };
    slots.iter().enumerate().map(told).collect::<Vec<_>>().join(" ; ")
}

/// The tables and the header, as the lines so far have left them.
struct Player {
    tables: Tables,
    header: Header,
}

impl Player {
    /// The answer of a line; a comment or a setting has none.
    fn play(&mut self, line: &str) -> Result<Option<String>, String> {
        let Some((name, numbers)) = read(line)? else { return Ok(None) };
        match (name, numbers.as_slice()) {
            ("lend", [links, rows]) => self.tables = Tables::of(*links as usize, *rows as usize, || FILL),
            ("header", [used, live]) => self.header = Header { used: *used, live: *live },
            ("links", [slot, words @ ..]) if words.len() == LINK_WORDS => {
                self.tables.lent().0[*slot as usize * LINK_WORDS..][..LINK_WORDS].copy_from_slice(words)
            }
            ("row", [slot, first]) => self.tables.lent().1[*slot as usize * ROW_WORDS..][..ROW_WORDS].copy_from_slice(&from(*first, ROW_WORDS)),
            ("show", []) => return Ok(Some(self.show())),
            _ => return self.call(name, &numbers).map(Some),
        }
        if name == "lend" {
            self.header = Header::default();
        }
        Ok(None)
    }

    fn show(&self) -> String {
        let slot = |slot: usize| SlotWords {
            links: self.tables.links()[slot * LINK_WORDS..][..LINK_WORDS].try_into().unwrap(),
            row: self.tables.rows()[slot * ROW_WORDS..][..ROW_WORDS].try_into().unwrap(),
        };
        show_told(&(0..self.header.used as usize).map(slot).collect::<Vec<_>>())
    }

    /// A look to write through. Every word outside the row must be as it was, and where it is refused every word.
    fn look_mut(&mut self, key: Key, first: u32) -> Result<String, String> {
        let mut wanted = self.tables.clone();
        let answer = self.tables.calls().key_number(self.header, key);
        let (links, rows) = self.tables.lent();
        let mut map = HopSlotMap::with_header(links, rows, self.header).map_err(|refusal| refusal.to_string())?;
        if let Some(row) = map.get_mut(key) {
            row.copy_from_slice(&from(first, ROW_WORDS));
        }
        if answer.kind == calls::DONE {
            wanted.lent().1[key.index as usize * ROW_WORDS..][..ROW_WORDS].copy_from_slice(&from(first, ROW_WORDS));
        }
        if self.tables != wanted {
            return Err("look_mut changed a word outside its row, or not that row".to_string());
        }
        Ok(told("look_mut", &answer))
    }

    /// Makes a call; where it is refused, every word and the header must be as they were.
    fn call(&mut self, name: &str, numbers: &[u32]) -> Result<String, String> {
        let (before, header) = (self.tables.clone(), self.header);
        let mut lent = self.tables.calls();
        let bytes: Vec<u8> = numbers.iter().map(|number| *number as u8).collect();
        let key = |index: &u32, version: &u32| Key { index: *index, version: *version };
        let answer = match (name, numbers) {
            ("start", []) => lent.start(header),
            ("room", []) => lent.room(header),
            ("key_number", [index, version]) => lent.key_number(header, key(index, version)),
            ("look", [index, version]) => lent.look(header, key(index, version)),
            ("look_mut", [index, version, first]) => return self.look_mut(key(index, version), *first),
            ("replace", [index, version, first, words]) => lent.replace(header, key(index, version), &from(*first, *words as usize)),
            ("insert", [first, words]) => lent.insert(header, &from(*first, *words as usize)),
            ("remove", [index, version]) => lent.remove(header, key(index, version)),
            ("hop_step", [cursor]) => lent.hop_step(header, *cursor),
            ("drain_step", []) => lent.drain_step(header),
            ("clear", []) => lent.clear(header),
            ("retain", _) => lent.retain(header, &bytes),
            ("rebuild", _) => lent.rebuild(header, &bytes),
            ("sound", []) => lent.sound(header),
            _ => return Err("not understood".to_string()),
        };
        if !self.tables.guarded() {
            return Err("a guard word changed".to_string());
        }
        if answer.kind == calls::REFUSED && (self.tables != before || answer.header != header) {
            return Err("a refused call changed something".to_string());
        }
        self.header = answer.header;
        Ok(told(name, &answer))
    }
}

fn told(name: &str, answer: &calls::Answer) -> String {
    let Key { index, version } = answer.key;
    let said = match (answer.kind, name) {
        (calls::REFUSED, _) => format!("refused {}", answer.number),
        (calls::DONE, _) => "done".to_string(),
        (_, "insert") => format!("key {index} {version}"),
        (_, "hop_step") => format!("visit {index} {version} {}", answer.cursor),
        (_, "room" | "retain") => format!("count {}", answer.count),
        _ => format!("row {index} {version}{}", spaced(&answer.row)),
    };
    with_header(&said, answer.header.used, answer.header.live)
}

/// An answer, with the header that was handed back.
pub fn with_header(said: &str, used: u32, live: u32) -> String {
    format!("{said} | {used} {live}")
}

/// The row of a key, as an answer.
pub fn row_told((index, version): (u32, u32), row: &[u32]) -> String {
    format!("row {index} {version}{}", spaced(row))
}

/// Plays a list and compares every answer.
pub fn play(name: &str, list: &str, tally: &Tally) -> Result<(), String> {
    let mut player = Player { tables: Tables::of(0, 0, || FILL), header: Header::default() };
    let mut faults = Vec::new();
    for (number, line) in list.lines().enumerate() {
        let (call, wanted) = match line.split_once(GIVES) {
            Some((call, wanted)) => (call, Some(wanted)),
            None => (line, None),
        };
        let given = player.play(call).unwrap_or_else(Some);
        if given.as_deref() != wanted {
            faults.push(format!(
                "{name}, line {}: {call}\n  the list has {}\n  the port gives {}",
                number + 1,
                wanted.unwrap_or("-"),
                given.as_deref().unwrap_or("-")
            ));
        }
        tally.add(Kind::Listed, u64::from(wanted.is_some()));
    }
    if faults.is_empty() {
        return Ok(());
    }
    Err(faults.join("\n"))
}

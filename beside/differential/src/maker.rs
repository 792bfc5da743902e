//! Makes the fixed list: random histories that the original answers, then the hand-written vectors.
use std::{fs, path};

use oracle::Key;

use crate::answers::{Answers, Told};
use crate::list::{self, FILL, GIVES};
use crate::random::Random;
use crate::tally::{Kind, Tally};

/// The seed of the list that is kept. Another makes another list.
const SEED: u64 = 1_969;

const HISTORIES: usize = 240;
const CALLS: usize = 26;

/// Versions near where they wrap, and small ones.
const VERSIONS: [u32; 14] = [0, 1, 2, 3, 5, 7, 9, 1 << 31, (1 << 31) - 1, (1 << 31) + 1, u32::MAX - 2, u32::MAX - 1, u32::MAX, 1];

/// What stands above the two parts.
const HEAD: &str = "# The fixed list. docs/LIST.md says its language, and how it was made.\n\n# == Answered by the original\n";

struct Maker {
    random: Random,
    text: String,
    answers: Answers,
    parted: bool,
    lent: usize,
    /// Every key there ever was in this history.
    keys: Vec<Key>,
    /// The row last used in this history.
    row: u32,
}

impl Maker {
    /// Writes a line, with the original's answer where it is a call.
    fn line(&mut self, line: &str) -> Result<(), String> {
        let told = self.answers.answer(line)?;
        if self.answers.parted && !self.parted {
            self.text.push_str("# parting 1 of document 01: from here on the mended copy answers alone\n");
        }
        self.parted = self.answers.parted;
        self.text.push_str(line);
        match told {
            Told::Nothing => {}
            Told::Answer(said) => {
                self.text.push_str(GIVES);
                self.text.push_str(&said);
            }
            Told::Unanswered => return Err(format!("{line}: the original has no answer")),
        }
        self.text.push('\n');
        Ok(())
    }

    /// The first word of a new row; some wrap.
    fn next_row(&mut self) -> u32 {
        self.row += 10;
        if self.random.once_in(16) {
            return u32::MAX - 3 - self.row % 4;
        }
        self.row
    }

    /// A key: mostly live, else one that was, else one that never was.
    fn any_key(&mut self) -> Key {
        let live = self.answers.live();
        self.keys.extend(live.iter().filter(|key| !self.keys.contains(key)).copied().collect::<Vec<_>>());
        match self.random.below(8) {
            0 if !self.keys.is_empty() => self.random.pick(&self.keys),
            1 => (self.random.below(self.lent + 1) as u32, self.random.pick(&VERSIONS)),
            _ if live.is_empty() => (0, 1),
            _ => self.random.pick(&live),
        }
    }

    /// One call, or a few that belong together.
    fn call(&mut self) -> Result<(), String> {
        let (index, version) = self.any_key();
        let key = format!("{index} {version}");
        match self.random.below(24) {
            0..=5 => self.line(&format!("remove {key}")),
            6 => self.line(&format!("look {key}")).and_then(|()| self.line(&format!("key_number {key}"))),
            7 => {
                let row = self.next_row();
                self.line(&format!("look_mut {key} {row}"))
            }
            8 => {
                let row = self.next_row();
                self.line(&format!("replace {key} {row} 8"))
            }
            9 => self.line("drain_step"),
            10 => {
                let bytes: String = (0..self.answers.used()).map(|_| format!(" {}", self.random.pick(&[0, 0, 1, 1, 1, 255]))).collect();
                self.line(&format!("retain{bytes}"))
            }
            11 => self.walk(),
            12 if self.random.once_in(3) => self.line("clear"),
            12 | 13 => self.line("room").and_then(|()| self.line("sound")),
            _ => {
                let row = self.next_row();
                self.line(&format!("insert {row} 8"))
            }
        }
    }

    /// A walk, step by step, and its end.
    fn walk(&mut self) -> Result<(), String> {
        let mut cursor = 0;
        for (index, _) in self.answers.live() {
            self.line(&format!("hop_step {cursor}"))?;
            cursor = index + 1;
        }
        self.line(&format!("hop_step {cursor}"))
    }

    /// Begins a history: a start, or a rebuild of versions of every sort.
    fn begin(&mut self, number: usize) -> Result<(), String> {
        let rebuilt = number % 3 == 2;
        self.lent = self.random.below(9) + if rebuilt { 5 } else { 2 };
        (self.row, self.keys) = (0, Vec::new());
        self.line(&format!("# history {number}: {}", if rebuilt { "rebuilt" } else { "fresh" }))?;
        self.line(&format!("lend {} {}", self.lent * hop::LINK_WORDS, self.lent * hop::ROW_WORDS))?;
        if !rebuilt {
            return self.line("start");
        }
        let mut presence = String::new();
        for slot in 0..self.lent - self.random.below(3) {
            let version = self.random.pick(&VERSIONS) & if slot == 0 { !1 } else { !0 };
            let row = self.next_row();
            self.line(&format!("links {slot} {version} {FILL} {FILL} {FILL}"))?;
            self.line(&format!("row {slot} {row}"))?;
            presence.push_str(&format!(" {}", version % 2));
        }
        self.line(&format!("rebuild{presence}"))
    }

    fn history(&mut self, number: usize) -> Result<(), String> {
        self.begin(number)?;
        for call in 0..CALLS {
            self.call()?;
            if call % 9 == 8 {
                self.line("show")?;
            }
        }
        self.walk()?;
        self.line("show")
    }
}

fn made() -> Result<String, String> {
    let mut maker =
        Maker { random: Random::new(SEED, 0), text: HEAD.to_string(), answers: Answers::new(), parted: false, lent: 0, keys: Vec::new(), row: 0 };
    for number in 0..HISTORIES {
        maker.history(number)?;
    }
    Ok(maker.text)
}

fn file(name: &str) -> path::PathBuf {
    path::Path::new(env!("CARGO_MANIFEST_DIR")).join("../..").join(name)
}

fn read(name: &str) -> Result<String, String> {
    fs::read_to_string(file(name)).map_err(|error| format!("{name}: {error}"))
}

const QUESTIONS: &str = "crates/replay/stdin";
const LIST: &str = "crates/replay/stdout";
const VECTORS: &str = "beside/vectors.txt";

fn without_answers(list: &str) -> String {
    list.lines().map(|line| line.split_once(GIVES).map_or(line, |(call, _)| call).to_string() + "\n").collect()
}

/// Writes the list that is kept.
pub fn make() -> Result<(), String> {
    let list = made()? + "\n" + &read(VECTORS)?;
    fs::write(file(LIST), &list).and_then(|()| fs::write(file(QUESTIONS), without_answers(&list))).map_err(|error| error.to_string())
}

/// The list that is kept is what the original says today, and what was written by hand; the port plays it.
pub fn kept(tally: &Tally) -> Result<(), String> {
    let (list, vectors) = (read(LIST)?, read(VECTORS)?);
    if read(QUESTIONS)? != without_answers(&list) {
        return Err(format!("{QUESTIONS} is not {LIST} without its answers"));
    }
    let hand = list.strip_suffix(&vectors).ok_or(format!("{LIST} does not end with {VECTORS}"))?;
    if !oracle::REBUILDS {
        println!("THE FIXED LIST IS NOT MADE AGAIN: ITS REBUILT HISTORIES NEED SERDE");
    } else if hand != made()? + "\n" {
        return Err(format!("{LIST} is not what the original answers: make it again with tests/differential --make, and see what changed"));
    }
    list::play(LIST, &list, tally)?;
    by_hand(&vectors, tally)
}

/// The hand-written answers, wherever the original can be asked.
fn by_hand(vectors: &str, tally: &Tally) -> Result<(), String> {
    let mut answers = Answers::new();
    for line in vectors.lines() {
        let (call, wanted) = line.split_once(GIVES).unwrap_or((line, ""));
        match answers.answer(call)? {
            Told::Answer(said) if said != wanted && oracle::REBUILDS => {
                return Err(format!("{VECTORS}: {call}\n  by hand {wanted}\n  the original {said}"))
            }
            Told::Answer(_) => tally.add(Kind::ByHand, 1),
            Told::Nothing | Told::Unanswered => {}
        }
    }
    Ok(())
}

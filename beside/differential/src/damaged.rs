//! Tables that no map left: every call ends, stays inside what was lent, and where it refuses it changes no word. Which number is right the original
//! cannot say; the hand-written vectors do.
use hop::{calls, Header, HopSlotMap, Key, LIMIT, LINK_WORDS, ROW_WORDS};

use crate::jobs::shared;
use crate::random::Random;
use crate::soundness::sound;
use crate::tables::Tables;
use crate::tally::{Kind, Tally};

/// Everything that a call may be given.
#[derive(Debug)]
struct Given {
    header: Header,
    key: Key,
    cursor: u32,
    side: Vec<u32>,
    bytes: Vec<u8>,
}

/// A call, and the numbers that it can give.
struct Call {
    name: &'static str,
    numbers: &'static [u32],
    make: fn(&mut Tables, &Given) -> calls::Answer,
}

const CALLS: [Call; 14] = [
    Call { name: "start", numbers: &[1], make: |tables, given| tables.calls().start(given.header) },
    Call { name: "room", numbers: &[1, 2], make: |tables, given| tables.calls().room(given.header) },
    Call { name: "key_number", numbers: &[1, 2, 3, 4], make: |tables, given| tables.calls().key_number(given.header, given.key) },
    Call { name: "look", numbers: &[1, 2, 3, 4], make: |tables, given| tables.calls().look(given.header, given.key) },
    Call { name: "look_mut", numbers: &[1, 2, 3, 4], make: looked_through },
    Call { name: "replace", numbers: &[1, 2, 3, 4], make: |tables, given| tables.calls().replace(given.header, given.key, &given.side) },
    Call { name: "insert", numbers: &[1, 2, 5], make: |tables, given| tables.calls().insert(given.header, &given.side) },
    Call { name: "remove", numbers: &[1, 2, 3, 4], make: |tables, given| tables.calls().remove(given.header, given.key) },
    Call { name: "hop_step", numbers: &[1, 2, 6], make: |tables, given| tables.calls().hop_step(given.header, given.cursor) },
    Call { name: "drain_step", numbers: &[1, 2], make: |tables, given| tables.calls().drain_step(given.header) },
    Call { name: "clear", numbers: &[1, 2], make: |tables, given| tables.calls().clear(given.header) },
    Call { name: "retain", numbers: &[1, 2], make: |tables, given| tables.calls().retain(given.header, &given.bytes) },
    Call { name: "rebuild", numbers: &[1, 7, 8], make: |tables, given| tables.calls().rebuild(given.header, &given.bytes) },
    Call { name: "sound", numbers: &[1, 2], make: |tables, given| tables.calls().sound(given.header) },
];

/// A look to write through, by the Rust surface. It has no number of its own: the key's is told. A row must be handed out exactly for a live key, and
/// what is written must stand in that row alone; an answer of no kind tells where it is not so.
fn looked_through(tables: &mut Tables, given: &Given) -> calls::Answer {
    let mut wanted = tables.clone();
    let answer = tables.calls().key_number(given.header, given.key);
    if answer.kind == calls::DONE {
        let first = given.key.index as usize * ROW_WORDS;
        wanted.lent().1[first..first + ROW_WORDS].iter_mut().for_each(|word| *word = !*word);
    }
    let (links, rows) = tables.lent();
    if let Ok(mut map) = HopSlotMap::with_header(links, rows, given.header) {
        map.get_mut(given.key).into_iter().flatten().for_each(|word| *word = !*word);
    }
    if *tables == wanted {
        return answer;
    }
    calls::Answer { kind: calls::REFUSED + 1, ..answer }
}

/// Number 1, as document 01 has it: of start and rebuild the lent buffers alone, of the others the header too, and of each its side buffer.
fn misshapen(call: &Call, tables: &Tables, given: &Given) -> bool {
    let slots = tables.slots();
    let (used, live) = (given.header.used as usize, given.header.live as usize);
    let lengths = tables.links().len() == slots * LINK_WORDS && tables.rows().len() == slots * ROW_WORDS && (1..=LIMIT).contains(&slots);
    let header = ["start", "rebuild"].contains(&call.name) || (1..=slots).contains(&used) && live < used;
    let beside = match call.name {
        "insert" | "replace" => given.side.len() == ROW_WORDS,
        "retain" => given.bytes.len() == used,
        "rebuild" => (1..=slots).contains(&given.bytes.len()),
        _ => true,
    };
    !(lengths && header && beside)
}

/// What is wrong with what a call did, if anything.
fn fault(call: &Call, before: &Tables, after: &Tables, given: &Given, answer: &calls::Answer) -> Option<&'static str> {
    if !after.guarded() {
        return Some("a guard word changed");
    }
    if answer.layout != calls::LAYOUT {
        return Some("another layout");
    }
    if (answer.number == 1) != misshapen(call, before, given) {
        return Some("1 for what has the right shape, or something else for what has not");
    }
    if answer.kind == calls::REFUSED {
        return refusal_fault(call, before, after, given, answer);
    }
    if answer.kind > calls::REFUSED || answer.number != 0 {
        return Some("neither an answer nor a refusal");
    }
    let top = given.header.used.max(answer.header.used) as usize;
    if !["start", "rebuild"].contains(&call.name) && !after.same_from(top, before) {
        return Some("a word past the slots in use changed");
    }
    if ["sound", "clear", "retain"].contains(&call.name) && !sound(before.links(), given.header) {
        return Some("the whole check passed a table that is not sound");
    }
    None
}

fn refusal_fault(call: &Call, before: &Tables, after: &Tables, given: &Given, answer: &calls::Answer) -> Option<&'static str> {
    if *answer != (calls::Answer { number: answer.number, header: given.header, ..REFUSED }) {
        return Some("a refusal answers more than its number, or another header");
    }
    if after != before {
        return Some("a refused call changed a word");
    }
    if !call.numbers.contains(&answer.number) {
        return Some("a number that this call never gives");
    }
    if answer.number == 2 && sound(before.links(), given.header) {
        return Some("2 on a sound table");
    }
    None
}

/// A refusal, with nothing in it yet.
const REFUSED: calls::Answer = calls::Answer {
    layout: calls::LAYOUT,
    kind: calls::REFUSED,
    number: 0,
    key: Key { index: 0, version: 0 },
    cursor: 0,
    count: 0,
    row: [0; ROW_WORDS],
    header: Header { used: 0, live: 0 },
};

/// A word near what a link can be, or any.
fn any_word(slots: usize, random: &mut Random) -> u32 {
    match random.below(8) {
        0 => random.word(),
        1 => u32::MAX - random.below(3) as u32,
        _ => random.below(slots + 2) as u32,
    }
}

/// Tables of random words, with any lengths and header.
fn random_words(random: &mut Random) -> (Tables, Header) {
    let slots = random.below(7);
    let (more, bits) = (|random: &mut Random| if random.once_in(12) { random.below(9) } else { 0 }, random.below(3));
    let (links, rows) = (slots * LINK_WORDS + more(random), slots * ROW_WORDS + more(random));
    let tables = Tables::of(links, rows, || if bits == 0 { random.word() } else { any_word(slots, random) });
    let used = random.below(slots.max(1)) as u32 + 1;
    let live = random.below(used as usize) as u32;
    (tables, if random.once_in(10) { Header { used: any_word(slots, random), live: any_word(slots, random) } } else { Header { used, live } })
}

/// A sound table of some random calls, with one word changed: a link word or a word of the header.
fn one_word_away(random: &mut Random) -> Option<(Tables, Header)> {
    let slots = random.below(9) + 1;
    let mut tables = Tables::random(slots, random);
    let (links, rows) = tables.lent();
    let mut map = HopSlotMap::new(links, rows).ok()?;
    let mut keys = Vec::new();
    for _ in 0..random.below(5 * slots) {
        if random.below(5) < 3 || keys.is_empty() {
            keys.extend(map.insert(random.row()));
        } else {
            map.remove(keys.swap_remove(random.below(keys.len()))).ok()?;
        }
    }
    let mut header = map.header();
    let word = any_word(slots, random);
    match random.below(8) {
        0 => header.used = word,
        1 => header.live = word,
        _ => {
            let place = random.below(header.used as usize * LINK_WORDS);
            let old = links[place];
            links[place] = if random.once_in(4) { old ^ 1 << random.below(32) } else { word };
        }
    }
    Some((tables, header))
}

/// A key, cursor, side buffer and bytes that may fit and may not.
fn given(tables: &Tables, header: Header, random: &mut Random) -> Given {
    let slots = tables.slots();
    let index = any_word(slots, random);
    let version = if random.once_in(4) || index as usize >= slots { any_word(slots, random) } else { tables.version(index as usize) };
    let side = if random.once_in(8) { random.below(17) } else { ROW_WORDS };
    let bytes = if random.once_in(8) { random.below(12) } else { (header.used as usize).min(slots) };
    let fitting = random.once_in(2);
    let byte = |slot: usize, random: &mut Random| {
        if fitting && slot < slots && !random.once_in(30) {
            (tables.version(slot) % 2) as u8
        } else {
            random.pick(&[0, 1, 1, 2, 255])
        }
    };
    Given {
        header,
        key: Key { index, version },
        cursor: any_word(slots, random),
        side: (0..side).map(|_| random.word()).collect(),
        bytes: (0..bytes).map(|slot| byte(slot, random)).collect(),
    }
}

/// Every call on one table.
fn every_call(tables: &Tables, header: Header, random: &mut Random, tally: &Tally) -> Result<(), String> {
    let mut refused = 0;
    for call in &CALLS {
        let given = given(tables, header, random);
        let mut after = tables.clone();
        let answer = (call.make)(&mut after, &given);
        if let Some(said) = fault(call, tables, &after, &given, &answer) {
            let (links, rows) = (tables.links(), tables.rows());
            return Err(format!("{}: {said}\n  answer {answer:?}\n  given {given:?}\n  links {links:?}\n  rows {rows:?}", call.name));
        }
        refused += u64::from(answer.kind == calls::REFUSED);
    }
    tally.add(Kind::DamagedCalls, CALLS.len() as u64);
    tally.add(Kind::DamagedRefused, refused);
    Ok(())
}

pub fn damaged(count: u64, seed: u64, tally: &Tally) -> Result<(), String> {
    const TOGETHER: u64 = 1_000;
    let jobs: Vec<u64> = (0..count / TOGETHER).collect();
    shared(&jobs, |job| {
        let mut random = Random::new(seed, 1 << 32 | job);
        for _ in 0..TOGETHER {
            let (kind, found) =
                if random.once_in(2) { (Kind::RandomWords, Some(random_words(&mut random))) } else { (Kind::OneWord, one_word_away(&mut random)) };
            let (tables, header) = found.ok_or("a sound table could not be made")?;
            every_call(&tables, header, &mut random, tally).map_err(|said| format!("{said}\n  in job {job} with seed {seed}"))?;
            tally.add(kind, 1);
        }
        Ok(())
    })
}

//! The soundness check beside its definition, word for word as document 01 has it and as plain as can be, on every small table.
use hop::{calls, Header, LINK_WORDS, ROW_WORDS};

use crate::jobs::shared;
use crate::tally::{Kind, Tally};

/// A table is sound when: slot 0 is even; live is the count of odd versions below used; following next from slot 0 visits the front of every run once
/// and comes back to 0; prev undoes next everywhere on that circle; at each run's front other_end is its back, and at its back other_end is its
/// front.
pub fn sound(links: &[u32], header: Header) -> bool {
    let used = header.used as usize;
    let word = |slot: usize, place: usize| links[slot * LINK_WORDS + place] as usize;
    let (next, prev, other_end) = (|slot| word(slot, 1), |slot| word(slot, 2), |slot| word(slot, 3));
    let vacant = |slot: usize| word(slot, 0).is_multiple_of(2);
    let front = |slot: usize| vacant(slot) && (slot == 0 || !vacant(slot - 1));
    let back = |slot: usize| (slot..used).take_while(|later| vacant(*later)).last().unwrap_or(slot);
    if !vacant(0) || (0..used).filter(|slot| !vacant(*slot)).count() != header.live as usize {
        return false;
    }
    let mut visited = vec![0];
    loop {
        let (last, led) = (visited[visited.len() - 1], next(visited[visited.len() - 1]));
        if led >= used || prev(led) != last {
            return false;
        }
        if led == 0 {
            break;
        }
        if visited.contains(&led) {
            return false;
        }
        visited.push(led);
    }
    visited.sort_unstable();
    let fronts: Vec<usize> = (0..used).filter(|slot| front(*slot)).collect();
    visited == fronts && fronts.iter().all(|front| other_end(*front) == back(*front) && other_end(back(*front)) == *front)
}

/// Compares on one table, with every count of live rows that passes the shape.
fn compare(links: &mut [u32], rows: &mut [u32], used: u32, tally: &Tally) -> Result<(), String> {
    for live in 0..used {
        let header = Header { used, live };
        let theirs = sound(links, header);
        let ours = calls::Tables::lent(links, rows).ok_or("the archive is of another layout")?.sound(header);
        if (ours.kind, ours.number) != if theirs { (calls::DONE, 0) } else { (calls::REFUSED, 2) } {
            return Err(format!("soundness of {links:?} with {header:?}: the check gives {ours:?}, the definition {theirs}"));
        }
        tally.add(Kind::Sound, u64::from(theirs));
    }
    tally.add(Kind::Checked, u64::from(used));
    Ok(())
}

/// All tables of three slots with link words 0 to 3, and of one and two; what lies past the slots in use is something else.
pub fn every(tally: &Tally) -> Result<(), String> {
    const SLOTS: usize = 3;
    for used in 1..=SLOTS {
        let words = used * LINK_WORDS;
        // The last slot's words are a job each.
        let jobs: Vec<usize> = (0..1 << (2 * LINK_WORDS)).collect();
        shared(&jobs, |last| {
            let (mut links, mut rows) = ([7; SLOTS * LINK_WORDS], [5; SLOTS * ROW_WORDS]);
            for rest in 0..1_usize << (2 * (words - LINK_WORDS)) {
                let all = rest | last << (2 * (words - LINK_WORDS));
                (0..words).for_each(|word| links[word] = (all >> (2 * word) & 3) as u32);
                compare(&mut links, &mut rows, used as u32, tally)?;
            }
            Ok(())
        })?;
    }
    Ok(())
}

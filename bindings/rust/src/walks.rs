//! Walks over the map, and the drain, as iterators.
use core::iter::FusedIterator;

use crate::{HopSlotMap, Key, Refusal, Row};

/// The bounds of an iterator that has so many rows still to show, or is over: a refusal may come in place of any of them, or after the last.
fn bounds(left: Option<u32>) -> (usize, Option<usize>) {
    match left {
        Some(left) => (usize::from(left > 0), usize::try_from(left).ok().and_then(|rows| rows.checked_add(1))),
        None => (0, Some(0)),
    }
}

/// Every live key with its row: [`HopSlotMap::iter`].
#[derive(Clone, Debug)]
pub struct Iter<'m, 't> {
    map: &'m HopSlotMap<'t>,
    // The cursor, and how many rows are still to be shown; nothing after the end, or after a refusal.
    goes_on: Option<(u32, u32)>,
}

impl<'m, 't> Iter<'m, 't> {
    pub(crate) fn over(map: &'m HopSlotMap<'t>) -> Self {
        Iter { map, goes_on: Some((0, map.header().live)) }
    }

    fn step(&mut self) -> Result<Option<(Key, &'m Row)>, Refusal> {
        let Some((cursor, left)) = self.goes_on.take() else { return Ok(None) };
        match (self.map.hop_step(cursor)?, left.checked_sub(1)) {
            (Some((key, next)), Some(left)) => {
                // A step names slots in use alone, so that the row is there.
                let row = self.map.row(key.index).ok_or(Refusal::Shape)?;
                self.goes_on = Some((next, left));
                Ok(Some((key, row)))
            }
            (None, None) => Ok(None),
            // One row too many, or too few: a link led past live rows, or live does not fit.
            _ => Err(Refusal::Damaged),
        }
    }
}

impl<'m> Iterator for Iter<'m, '_> {
    type Item = Result<(Key, &'m Row), Refusal>;

    fn next(&mut self) -> Option<Self::Item> {
        self.step().transpose()
    }

    fn size_hint(&self) -> (usize, Option<usize>) {
        bounds(self.goes_on.map(|(_, left)| left))
    }
}

impl FusedIterator for Iter<'_, '_> {}

impl<'m, 't> IntoIterator for &'m HopSlotMap<'t> {
    type Item = Result<(Key, &'m Row), Refusal>;
    type IntoIter = Iter<'m, 't>;

    fn into_iter(self) -> Self::IntoIter {
        self.iter()
    }
}

/// Every live key: [`HopSlotMap::keys`].
#[derive(Clone, Debug)]
pub struct Keys<'m, 't>(Iter<'m, 't>);

impl<'m, 't> Keys<'m, 't> {
    pub(crate) fn over(map: &'m HopSlotMap<'t>) -> Self {
        Keys(Iter::over(map))
    }
}

impl Iterator for Keys<'_, '_> {
    type Item = Result<Key, Refusal>;

    fn next(&mut self) -> Option<Self::Item> {
        Some(self.0.next()?.map(|(key, _)| key))
    }

    fn size_hint(&self) -> (usize, Option<usize>) {
        self.0.size_hint()
    }
}

impl FusedIterator for Keys<'_, '_> {}

/// Every live row: [`HopSlotMap::values`].
#[derive(Clone, Debug)]
pub struct Values<'m, 't>(Iter<'m, 't>);

impl<'m, 't> Values<'m, 't> {
    pub(crate) fn over(map: &'m HopSlotMap<'t>) -> Self {
        Values(Iter::over(map))
    }
}

impl<'m> Iterator for Values<'m, '_> {
    type Item = Result<&'m Row, Refusal>;

    fn next(&mut self) -> Option<Self::Item> {
        Some(self.0.next()?.map(|(_, row)| row))
    }

    fn size_hint(&self) -> (usize, Option<usize>) {
        self.0.size_hint()
    }
}

impl FusedIterator for Values<'_, '_> {}

/// Every row, taken out: [`HopSlotMap::drain`].
#[derive(Debug)]
pub struct Drain<'m, 't> {
    map: &'m mut HopSlotMap<'t>,
    over: bool,
}

impl<'m, 't> Drain<'m, 't> {
    pub(crate) fn of(map: &'m mut HopSlotMap<'t>) -> Self {
        Drain { map, over: false }
    }
}

impl Iterator for Drain<'_, '_> {
    type Item = Result<(Key, Row), Refusal>;

    fn next(&mut self) -> Option<Self::Item> {
        if self.over {
            return None;
        }
        let step = self.map.drain_step().transpose();
        self.over = !matches!(step, Some(Ok(_)));
        step
    }

    fn size_hint(&self) -> (usize, Option<usize>) {
        bounds((!self.over).then_some(self.map.header().live))
    }
}

impl FusedIterator for Drain<'_, '_> {}

impl Drop for Drain<'_, '_> {
    fn drop(&mut self) {
        self.for_each(drop);
    }
}

//! The events of an input.
use crate::calls::{self, Fault};
use crate::{ended, room_of, Error, Held, Limits};
use std::marker::PhantomData;

/// An event: `first` is its first bit, `after` the bit after it.
#[derive(Clone, Debug, PartialEq, Eq)]
pub enum Event {
    Enter { id: u32, width: u32, first: u64, after: u64 },
    Define { operands: Vec<Operand>, first: u64, after: u64 },
    Record { abbreviation: u32, code: u64, values: Vec<u64>, first: u64, after: u64 },
    Leave { after: u64 },
}

/// An operand of a definition: a literal's value, or a width in bits.
#[derive(Clone, Copy, Debug, PartialEq, Eq)]
pub enum Operand {
    Literal(u64),
    Fixed(u8),
    Vbr(u8),
    Array,
    Char6,
    Blob,
}

fn operand_of(it: &calls::Operand) -> Operand {
    match it.kind {
        0 => Operand::Literal(it.value),
        // Widths are at most 64.
        1 => Operand::Fixed(it.value as u8),
        2 => Operand::Vbr(it.value as u8),
        3 => Operand::Array,
        4 => Operand::Char6,
        _ => Operand::Blob,
    }
}

/// Iterates over the events of an input. If the input is refused, it gives those before the fault, and then the error once.
///
/// A record has as many values as the limit permits, 8 bytes each, also if they take no bits of the input: with the usual limits up
/// to 1 GiB. `Error::Memory` if an allocation fails.
#[derive(Debug)]
pub struct Events<'a> {
    held: Held,
    over: bool,
    bytes: PhantomData<&'a [u8]>,
}

impl<'a> Events<'a> {
    pub fn new(bytes: &'a [u8], limits: &Limits) -> Result<Events<'a>, Error> {
        let (mut held, mut fault) = (Held::closed(), Fault::default());
        // SAFETY: the bytes are borrowed as long as the handle is open.
        let status = unsafe { calls::bs_open(bytes.as_ptr(), bytes.len(), limits, &mut held.0, &mut fault) };
        ended(status, &fault)?;
        Ok(Events::of(held))
    }

    /// The events that a handle holds.
    pub(crate) fn of(held: Held) -> Events<'a> {
        Events { held, over: false, bytes: PhantomData }
    }

    fn values(&mut self, count: usize) -> Result<Vec<u64>, Error> {
        let (mut values, mut needed, mut fault) = (room_of(count)?, 0, Fault::default());
        // SAFETY: the room is initialised, and borrowed alone.
        let status = unsafe { calls::bs_values(&mut self.held.0, values.as_mut_ptr(), count, &mut needed, &mut fault) };
        ended(status, &fault)?;
        Ok(values)
    }

    /// The magic of the stream, its first byte first.
    pub fn magic(&mut self) -> [u8; 4] {
        let (mut magic, mut fault) = (calls::Magic::default(), Fault::default());
        // SAFETY: the handle is open, so the call cannot fail.
        unsafe { calls::bs_magic(&mut self.held.0, &mut magic, &mut fault) };
        magic.bytes
    }

    fn operands(&mut self) -> Result<Vec<Operand>, Error> {
        let (mut needed, mut fault) = (0, Fault::default());
        // SAFETY: an empty room may have any pointer.
        unsafe { calls::bs_operands(&mut self.held.0, std::ptr::null_mut(), 0, &mut needed, &mut fault) };
        let mut room: Vec<calls::Operand> = room_of(needed)?;
        // SAFETY: the room is initialised, and borrowed alone.
        let status = unsafe { calls::bs_operands(&mut self.held.0, room.as_mut_ptr(), needed, &mut needed, &mut fault) };
        ended(status, &fault)?;
        Ok(room.iter().map(operand_of).collect())
    }

    fn step(&mut self) -> Result<Option<Event>, Error> {
        let (mut it, mut fault) = (calls::Event::default(), Fault::default());
        // SAFETY: the handle is open.
        let status = unsafe { calls::bs_next(&mut self.held.0, &mut it, &mut fault) };
        ended(status, &fault)?;
        let calls::Event { kind, id, width, code, count, first, after } = it;
        Ok(match kind {
            1 => Some(Event::Enter { id, width, first, after }),
            2 => Some(Event::Define { operands: self.operands()?, first, after }),
            3 => Some(Event::Record { abbreviation: id, code, values: self.values(count)?, first, after }),
            4 => Some(Event::Leave { after }),
            _ => None,
        })
    }
}

impl Iterator for Events<'_> {
    type Item = Result<Event, Error>;

    fn next(&mut self) -> Option<Self::Item> {
        if self.over {
            return None;
        }
        let item = self.step().transpose();
        self.over = !matches!(item, Some(Ok(_)));
        item
    }
}

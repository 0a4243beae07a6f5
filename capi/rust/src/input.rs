//! An input in pieces.
use crate::calls::{self, Fault};
use crate::{compared, difference, ended, Difference, Error, Events, Held, LeftOut, Limits, Text};
use std::io;

/// An input that comes in pieces, as by `std::io::copy`. All of it is kept.
#[derive(Debug)]
pub struct Input(Held);

impl Input {
    /// An input of no bytes.
    pub fn new() -> Result<Input, Error> {
        let mut input = Input(Held::closed());
        input.feed(&[])?;
        Ok(input)
    }

    /// Adds a piece. If an allocation fails, the input is unchanged.
    pub fn feed(&mut self, piece: &[u8]) -> Result<(), Error> {
        let mut fault = Fault::default();
        // SAFETY: the pointer and the length are those of one slice.
        let status = unsafe { calls::bs_feed(&mut self.0 .0, piece.as_ptr(), piece.len(), &mut fault) };
        ended(status, &fault).map(drop)
    }

    /// Whether the input is accepted.
    pub fn check(&mut self, limits: &Limits) -> Result<(), Error> {
        let mut fault = Fault::default();
        // SAFETY: each argument is borrowed for the call alone; so below.
        let status = unsafe { calls::bs_fed_check(&mut self.0 .0, limits, &mut fault) };
        ended(status, &fault).map(drop)
    }

    /// Whether this input and another one have the same magic, blocks and records.
    pub fn same(&mut self, other: &mut Input, limits: &Limits, left_out: &LeftOut<'_>) -> Result<bool, Error> {
        let mut fault = Fault::default();
        // SAFETY: as in `check`; two mutable borrows are of two handles.
        let status = unsafe { calls::bs_fed_same(&mut self.0 .0, &mut other.0 .0, limits, &left_out.passed(), &mut fault) };
        compared(status, &fault)
    }

    /// Where this input and another one first differ, if they do.
    pub fn first_difference(&mut self, other: &mut Input, limits: &Limits, left_out: &LeftOut<'_>) -> Result<Option<Difference>, Error> {
        let (one, two, names) = (&mut self.0 .0, &mut other.0 .0, left_out.passed());
        // SAFETY: as in `same`; the room is initialised, and borrowed alone.
        difference::found(|told, room, fault| unsafe {
            calls::bs_fed_first_difference(one, two, limits, &names, told, room.as_mut_ptr(), room.len(), fault)
        })
    }

    /// The report, as `bitstool analyse` prints it.
    pub fn report(mut self, limits: &Limits) -> Result<Text, Error> {
        let mut fault = Fault::default();
        // SAFETY: as in `check`.
        let status = unsafe { calls::bs_fed_report(&mut self.0 .0, limits, &mut fault) };
        ended(status, &fault)?;
        Ok(Text(self.0))
    }

    /// The normal form.
    pub fn normal(mut self, limits: &Limits, left_out: &LeftOut<'_>) -> Result<Text, Error> {
        let mut fault = Fault::default();
        // SAFETY: as in `check`.
        let status = unsafe { calls::bs_fed_normal(&mut self.0 .0, limits, &left_out.passed(), &mut fault) };
        ended(status, &fault)?;
        Ok(Text(self.0))
    }

    /// The listing, as `bitstool show` prints it.
    pub fn show(mut self, limits: &Limits, left_out: &LeftOut<'_>) -> Result<Text, Error> {
        let mut fault = Fault::default();
        // SAFETY: as in `check`.
        let status = unsafe { calls::bs_fed_show(&mut self.0 .0, limits, &left_out.passed(), &mut fault) };
        ended(status, &fault)?;
        Ok(Text(self.0))
    }

    /// The events. They own the pieces.
    pub fn events(mut self, limits: &Limits) -> Result<Events<'static>, Error> {
        let mut fault = Fault::default();
        // SAFETY: as in `check`.
        let status = unsafe { calls::bs_fed_events(&mut self.0 .0, limits, &mut fault) };
        ended(status, &fault)?;
        Ok(Events::of(self.0))
    }
}

impl io::Write for Input {
    fn write(&mut self, piece: &[u8]) -> io::Result<usize> {
        self.feed(piece).map_err(|error| io::Error::new(io::ErrorKind::OutOfMemory, error))?;
        Ok(piece.len())
    }

    fn flush(&mut self) -> io::Result<()> {
        Ok(())
    }
}

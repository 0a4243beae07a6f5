//! The writer of a tree.
use crate::calls::{self, Fault, Magic};
use crate::{ended, Error, Held, Limits, Text};

/// Writes the normal form of a tree item by item. `Error::Unfit` changes nothing; another error closes the writer.
#[derive(Debug)]
pub struct Writer(Held);

impl Writer {
    /// Begins a tree with a magic, its first byte first.
    pub fn new(magic: [u8; 4], limits: &Limits) -> Result<Writer, Error> {
        let (mut held, mut fault) = (Held::closed(), Fault::default());
        // SAFETY: each argument is borrowed for the call alone; so below.
        let status = unsafe { calls::bs_write_open(&Magic { bytes: magic }, limits, &mut held.0, &mut fault) };
        ended(status, &fault)?;
        Ok(Writer(held))
    }

    /// A block with this id begins in the innermost open block, or at the top.
    pub fn enter(&mut self, id: u32) -> Result<(), Error> {
        let mut fault = Fault::default();
        // SAFETY: as in `new`.
        let status = unsafe { calls::bs_write_enter(&mut self.0 .0, id, &mut fault) };
        ended(status, &fault).map(drop)
    }

    /// A record of the innermost open block.
    pub fn record(&mut self, code: u64, values: &[u64]) -> Result<(), Error> {
        let mut fault = Fault::default();
        // SAFETY: the pointer and the length are those of one slice.
        let status = unsafe { calls::bs_write_record(&mut self.0 .0, code, values.as_ptr(), values.len(), &mut fault) };
        ended(status, &fault).map(drop)
    }

    /// The innermost open block ends.
    pub fn leave(&mut self) -> Result<(), Error> {
        let mut fault = Fault::default();
        // SAFETY: as in `new`.
        let status = unsafe { calls::bs_write_leave(&mut self.0 .0, &mut fault) };
        ended(status, &fault).map(drop)
    }

    /// The normal form of the tree. `Error::Unfit` if a block is open.
    pub fn finish(mut self) -> Result<Text, Error> {
        let mut fault = Fault::default();
        // SAFETY: as in `new`.
        let status = unsafe { calls::bs_write_finish(&mut self.0 .0, &mut fault) };
        ended(status, &fault)?;
        Ok(Text(self.0))
    }
}

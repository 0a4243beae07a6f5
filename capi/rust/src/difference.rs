//! Where two inputs first differ.
use crate::calls::{self, Fault, OpenBlock};
use crate::{compared, Error, LeftOut, Limits};

/// The item at a place of an input.
#[derive(Clone, Copy, Debug, PartialEq, Eq)]
pub enum Standing {
    Magic([u8; 4]),
    Block { id: u32 },
    Record { code: u64, count: u64 },
    End,
}

/// Where two inputs first differ.
#[derive(Clone, Debug, PartialEq, Eq)]
pub struct Difference {
    /// The open blocks, the outermost first: the id of each, and the number of items before it.
    pub blocks: Vec<(u32, u64)>,
    /// The number of items before the place in the innermost block, or at the top.
    pub items: u64,
    /// The item there in each input, and its first bit.
    pub first: (u64, Standing),
    pub second: (u64, Standing),
    /// For two records with the same code, the index of the first values that differ, and these.
    pub values: Option<(u64, u64, u64)>,
}

fn standing(it: &calls::Standing) -> (u64, Standing) {
    let what = match it.kind {
        1 => Standing::Magic(it.magic),
        2 => Standing::Block { id: it.id },
        3 => Standing::Record { code: it.code, count: it.count },
        _ => Standing::End,
    };
    (it.bit, what)
}

/// Where two inputs first differ, if they do.
pub fn first_difference(one: &[u8], two: &[u8], limits: &Limits, left_out: &LeftOut<'_>) -> Result<Option<Difference>, Error> {
    let names = left_out.passed();
    // SAFETY: each pointer and its length are those of one slice or array; the room is initialised, and borrowed alone.
    found(|told, room, fault| unsafe {
        calls::bs_first_difference(one.as_ptr(), one.len(), two.as_ptr(), two.len(), limits, &names, told, room.as_mut_ptr(), room.len(), fault)
    })
}

/// What a call finds that compares.
pub(crate) fn found(
    call: impl FnOnce(&mut calls::Difference, &mut [OpenBlock], &mut Fault) -> u32,
) -> Result<Option<Difference>, Error> {
    let (mut told, mut room, mut fault) = (calls::Difference::default(), [OpenBlock::default(); 255], Fault::default());
    let status = call(&mut told, &mut room, &mut fault);
    if compared(status, &fault)? {
        return Ok(None);
    }
    let values = &told.values;
    Ok(Some(Difference {
        blocks: room[..told.depth].iter().map(|it| (it.id, it.items)).collect(),
        items: told.items,
        first: standing(&told.first),
        second: standing(&told.second),
        values: values.differ.then_some((values.index, values.first, values.second)),
    }))
}

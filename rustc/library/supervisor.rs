//! Taking programs in, and the table of what is in flight.

use crate::{Area, Device, Error, Job, Needs, Place, Reason, Source, StartRefusal};
use crate::{needs, no_memory};
use chan_needs::{NeedLists, Remembered, Start, check_start};
use kit::alloc::Global;
use kit::c::List;
use std::sync::Arc;

const NO_AREA: Area = Area { start: 0, len: 0 };

/// What a caller allows a program that it takes in. By default it allows nothing.
#[derive(Clone, Copy, PartialEq, Eq, Debug, Default)]
pub struct Allowed {
    /// It may go on until it is halted.
    pub hangs: bool,
    /// It may ask for program-controlled interruptions.
    pub interrupts: bool,
    /// It may end at a No Operation or Recalibrate with chain data on.
    pub ends_chaining: bool,
}

/// Why a program may not run, isn't taken in or may not start, or others may not write.
#[derive(Clone, Copy, PartialEq, Eq, Debug, thiserror::Error)]
pub enum Refusal {
    /// There is no answer.
    #[error(transparent)]
    NoAnswer(#[from] Error),
    /// Some run does harm. This is the address of the first offending CCW, and why it offends.
    #[error("no {0:06X} {word}", word = .1.word())]
    No(u32, Reason),
    /// No job will do. The job that grants everything has a no with this address and reason.
    #[error("no job will do: {0:06X} {word}", word = .1.word())]
    NoJob(u32, Reason),
    /// The program keeps the byte at this address, the least that its user doesn't own.
    #[error("it keeps the byte at {0:06X}, which its user doesn't own")]
    KeepsOutside(u32),
    /// From this place on the program never ends by itself.
    #[error("from {:06X} on it never ends by itself", .0.address)]
    MayHang(Place),
    /// The CCW at this address asks for a program-controlled interruption.
    #[error("the CCW at {0:06X} asks for an interruption")]
    Interrupts(u32),
    /// At this address is a No Operation or Recalibrate with chain data on.
    #[error("at {0:06X} it ends a command with chain data on")]
    EndsChaining(u32),
    /// The program may not start, or the bytes can't stay.
    #[error("not under this job or beside this table: {0:X?}")]
    Start(StartRefusal),
    /// The row of this index, the first that keeps a byte of the area, keeps the byte at this
    /// address, the least.
    #[error("row {0} keeps the byte at {1:06X}")]
    Kept(usize, u32),
}

/// A program that was taken in, with its needs and its kept bytes. Only [`take_in`] makes it.
#[derive(Clone, Debug)]
pub struct Program(Arc<Taken>);

#[derive(Debug, Default)]
struct Taken {
    needs: Needs,
    kept: Vec<u8>,
    storage_len: u32,
    start: u32,
    device: u16,
}

/// A row of the table of what is in flight: a program, or an area that is written or must stay. Only
/// a yes makes it.
#[must_use = "put the row into the table before the start or the first byte"]
#[derive(Debug)]
pub struct Row {
    program: Program,
    stores: Area,
    keeps: Area,
}

/// Takes a program in, whose user owns these areas. They may overlap, adjoin, lie in any order and
/// reach past storage; no areas means that the user owns nothing.
///
/// The refusal is the first of: [`NoAnswer`](Refusal::NoAnswer), [`NoJob`](Refusal::NoJob),
/// [`KeepsOutside`](Refusal::KeepsOutside), and what isn't allowed, in the order of [`Allowed`].
pub fn take_in(source: &Source, own: &[Area], allowed: Allowed) -> Result<Program, Refusal> {
    let needs = needs(source)?;
    let mut kept = Vec::new();
    let len = chan_needs::kept_len(&needs.keep);
    kept.try_reserve_exact(len).map_err(no_memory)?;
    for area in &needs.keep {
        kept.extend_from_slice(&source.storage[area.start as usize..][..area.len as usize]);
    }
    let device = match source.device {
        Device::D2311 => 2311,
        Device::D2314 => 2314,
    };
    let (start, storage_len) = (source.start, source.storage.len() as u32);
    let program = Program(Arc::new(Taken { needs, kept, storage_len, start, device }));
    let outside = chan_needs::kept_outside(Global, &program.needs().keep, own);
    if let Some(byte) = outside.map_err(no_memory)? {
        return Err(Refusal::KeepsOutside(byte));
    }
    let needs = program.needs();
    match (needs.hangs, needs.interrupts, needs.ends_chaining) {
        (Some(place), _, _) if !allowed.hangs => Err(Refusal::MayHang(place)),
        (_, Some(address), _) if !allowed.interrupts => Err(Refusal::Interrupts(address)),
        (_, _, Some(address)) if !allowed.ends_chaining => Err(Refusal::EndsChaining(address)),
        _ => Ok(program),
    }
}

/// Whether a program that was taken in may start under a job, together with what is in flight: its
/// row in the table, or the first reason why not. It has to be in the table before the start.
pub fn may_start(program: &Program, job: &Job, in_flight: &[Row]) -> Result<Row, Refusal> {
    let mut rows = Vec::new();
    rows.try_reserve_exact(in_flight.len()).map_err(no_memory)?;
    rows.extend(in_flight.iter().map(Row::entry));
    match job.ask(|job| Ok(check_start(Global, job, &program.remembered(), &rows)?))? {
        Start::Yes => Ok(Row { program: program.clone(), stores: NO_AREA, keeps: NO_AREA }),
        Start::No(refusal) => Err(Refusal::Start(refusal)),
    }
}

/// Whether others, such as the processor, may write into an area now.
pub fn may_write(in_flight: &[Row], area: Area) -> Result<(), Refusal> {
    for (number, row) in in_flight.iter().enumerate() {
        if let Some(byte) = row.entry().kept_in(area) {
            return Err(Refusal::Kept(number, byte));
        }
    }
    Ok(())
}

impl Program {
    /// What the program needs, keeps and may do.
    pub fn needs(&self) -> &Needs {
        &self.0.needs
    }

    fn remembered(&self) -> Remembered<'_> {
        let Taken { needs, kept, storage_len, start, device } = &*self.0;
        Remembered {
            needs: NeedLists {
                extents: List::of(&needs.extents),
                fetch: List::of(&needs.fetch),
                store: List::of(&needs.store),
                keep: List::of(&needs.keep),
                storage_len: *storage_len,
                mask: needs.mask,
            },
            kept: List::of(kept),
            start: *start,
            device: *device,
        }
    }
}

impl Row {
    /// The row of a write that lasts, such as another device's input, if nothing in flight keeps a
    /// byte of the area: as long as the row is in the table, no program that does may start.
    pub fn writing(in_flight: &[Row], area: Area) -> Result<Row, Refusal> {
        may_write(in_flight, area)?;
        Ok(Row { program: Program(Arc::default()), stores: area, keeps: NO_AREA })
    }

    /// The row of bytes that must stay, such as the prefixes, if nothing in flight may store over
    /// them: as long as the row is in the table, no program that may store over them may start.
    pub fn keeping(in_flight: &[Row], area: Area) -> Result<Row, Refusal> {
        let keep = Program(Arc::new(Taken {
            needs: Needs { keep: vec![area], ..Needs::default() },
            ..Taken::default()
        }));
        let needs = keep.remembered().needs;
        for (number, row) in in_flight.iter().enumerate() {
            if let Some(conflict) = needs.conflict(&row.entry()) {
                return Err(Refusal::Start(StartRefusal::Conflict(number, conflict)));
            }
        }
        Ok(Row { program: Program(Arc::default()), stores: NO_AREA, keeps: area })
    }

    fn entry(&self) -> chan_needs::Row<'_> {
        chan_needs::Row {
            program: self.program.remembered(),
            stores: self.stores,
            keeps: self.keeps,
        }
    }
}

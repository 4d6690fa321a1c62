//! Tells whether a System/360 channel program is safe to start; built by rustc, **not proved**.
//!
//! ```
//! use chanv::{Allowed, Area, Device, Extent, Job, Refusal, Source};
//!
//! fn main() -> Result<(), Refusal> {
//!     let mut storage = vec![0; 0x1000];
//!     let program: [u64; 3] = [
//!         0x3100_0900_4000_0005, // search for the record named at 000900
//!         0x0800_0800_0000_0000, // not this record: go back and try the next
//!         0x0600_0A00_2000_0050, // found: read its 80 bytes to 000A00
//!     ];
//!     for (at, ccw) in program.iter().enumerate() {
//!         storage[0x800 + 8 * at..][..8].copy_from_slice(&ccw.to_be_bytes());
//!     }
//!     let source = Source::new(&storage, 0x800, Device::D2314);
//!     let job = Job {
//!         source,
//!         mask: 0x00,
//!         extents: &[Extent { first: 10, last: 19 }],
//!         fetch: &[Area { start: 0x900, len: 0x10 }],
//!         store: &[Area { start: 0xA00, len: 0x100 }],
//!     };
//!     chanv::verify(&job)?; // every run is safe; a no is an error
//!
//!     let why = chanv::why(&Job { store: &[], ..job })?;
//!     assert_eq!(why.verdict.to_string(), "no 000810 store-not-lent");
//!     assert_eq!(why.path.len(), 2);
//!     println!("{why}"); // what `chanv why` prints
//!
//!     // A supervisor takes a program in, and asks before each start and each write of others.
//!     let own = [Area { start: 0x800, len: 0x400 }];
//!     let program = chanv::take_in(&source, &own, Allowed::default())?;
//!     let mut in_flight = Vec::new();
//!     let row = chanv::may_start(&program, &job, &in_flight)?;
//!     in_flight.push(row); // and now the start itself
//!     assert!(chanv::may_write(&in_flight, Area { start: 0x810, len: 1 }).is_err());
//!     Ok(())
//! }
//! ```
//!
//! The pages of chanv say what the answers mean: VERDICT has the rules, THEOREM says what a *yes*
//! promises, and SUPERVISOR lists the duties of a caller with several programs in flight. Their
//! proofs are about the library for C that the kit builds. This library is only tested.
//!
//! | if you forget | you get |
//! |---|---|
//! | a field of a job | an error of the compiler |
//! | to look at an answer, or to keep the row of a start | a warning of the compiler |
//! | which storage the user owns | a refusal: no areas means that the user owns nothing |
//! | to decide about programs that never end | a refusal: [`Allowed`] allows nothing by itself |
//! | to take a row out at the program's end | refusals of later starts and writes |
//! | the lock, the prefix, or to ask before a write | answers that don't hold (SUPERVISOR) |
//!
//! Nothing may write storage while a call runs: Rust's rule for a slice that is borrowed. If
//! channels store during a call, use the library for C: its `chanv_take_in` and `chanv_check_start`
//! allow that. If memory is refused, a call returns [`Error::Memory`]. Only for the few bytes that
//! share a [`Program`] or a [`Row`] does Rust end the process.

#![deny(missing_debug_implementations, missing_docs)]

mod supervisor;

use ccw_core::Storage;
use chan_walk::{Limit, OpenJob, WalkError};
use ckd_core::{ExtentError, Extents};
use kit::alloc::Global;
use std::fmt;

pub use ccw_core::Area;
pub use chan_needs::{Conflict, Extent, StartRefusal};
pub use chan_walk::{Entry, Evidence, GivenBytes, Outside, Place, Reason};
pub use ckd_core::{Device, FileMask};
pub use supervisor::{Allowed, Program, Refusal, Row, may_start, may_write, take_in};

/// The version of chanv, which ends with `+not.proved`.
pub const VERSION: &str = env!("CARGO_PKG_VERSION");

/// A channel program in storage, before anybody has judged it.
#[derive(Clone, Copy, PartialEq, Eq, Debug)]
pub struct Source<'a> {
    /// Main storage from address 0 on: at most 16,777,216 bytes.
    pub storage: &'a [u8],
    /// The address of the first CCW.
    pub start: u32,
    /// The device that the program runs against.
    pub device: Device,
    /// How many places may be reachable: 1 to 65,536.
    pub limit: u32,
}

/// A channel program, and all that it may use.
#[derive(Clone, Copy, Debug)]
pub struct Job<'a> {
    /// The program.
    pub source: Source<'a>,
    /// The file mask that is in force at its start.
    pub mask: u8,
    /// The cylinders of its file. An extent has both its first and its last.
    pub extents: &'a [Extent],
    /// The areas lent for fetching, from storage to the device.
    pub fetch: &'a [Area],
    /// The areas lent for storing, from the device into storage.
    pub store: &'a [Area],
}

/// Why there is no answer.
#[derive(Clone, Copy, PartialEq, Eq, Debug, thiserror::Error)]
pub enum Error {
    /// Storage has more than 16,777,216 bytes.
    #[error("storage is larger than 16,777,216 bytes")]
    StorageTooLarge,
    /// This byte isn't a file mask.
    #[error("{0:02X} is not a file mask")]
    NotAMask(u8),
    /// There is no extent.
    #[error("no extent")]
    NoExtent,
    /// The extent of this index is the first wrong extent: its first cylinder is above its last.
    #[error("extent {0}: first cylinder above last")]
    ExtentBackwards(usize),
    /// The extent of this index is the first wrong extent: it ends past the device.
    #[error("extent {0}: past the last cylinder of the device")]
    ExtentPastDevice(usize),
    /// This limit isn't from 1 to 65,536.
    #[error("a limit of {0} places")]
    NotALimit(u32),
    /// More places are reachable than the limit: neither yes nor no.
    #[error("too many places")]
    TooManyPlaces,
    /// Memory was refused: neither yes nor no.
    #[error("out of memory")]
    Memory,
}

/// Whether a program may run, with what shows it.
#[derive(Clone, Copy, PartialEq, Eq, Debug)]
pub enum Verdict {
    /// Every run is safe.
    Yes,
    /// Some run does harm.
    No {
        /// The address of the first offending CCW.
        address: u32,
        /// Why it offends.
        reason: Reason,
    },
}

/// A verdict, and what shows a no. As text it is what `chanv why` prints.
#[must_use = "only a program with a yes may start"]
#[derive(Clone, Debug)]
pub struct Explanation {
    /// The verdict.
    pub verdict: Verdict,
    /// The path to the offending CCW; empty after a yes.
    pub path: Vec<Place>,
    /// The cause, with its values.
    pub evidence: Option<Evidence>,
    /// The path to the CCW or argument that is changed, if the reason is such a change.
    pub second_path: Vec<Place>,
    text: String,
}

/// What each job of a program must grant, which bytes must not change while the program runs, and
/// what it may do. Areas and extents rise, with a gap between two.
#[derive(Clone, Debug, Default)]
pub struct Needs {
    /// The strictest file mask that serves.
    pub mask: u8,
    /// The cylinders that it seeks.
    pub extents: Vec<Extent>,
    /// The bytes that it fetches.
    pub fetch: Vec<Area>,
    /// The bytes that it stores into.
    pub store: Vec<Area>,
    /// The bytes that must not change: CCWs, seek arguments and mask bytes.
    pub keep: Vec<Area>,
    /// The first place from which on it never ends by itself.
    pub hangs: Option<Place>,
    /// The first CCW that asks for a program-controlled interruption.
    pub interrupts: Option<u32>,
    /// The first No Operation or Recalibrate with chain data on. The program ends there; on some
    /// channels it goes on.
    pub ends_chaining: Option<u32>,
}

/// Whether a program may run: every run is safe, or [`Refusal::No`].
pub fn verify(job: &Job) -> Result<(), Refusal> {
    match job.ask(|job| chan_walk::verify(Global, job))? {
        chan_walk::Verdict::Yes => Ok(()),
        chan_walk::Verdict::No { address, reason } => Err(Refusal::No(address, reason)),
    }
}

/// Why a program may not run.
pub fn why(job: &Job) -> Result<Explanation, Error> {
    job.ask(|job| {
        let survey = chan_walk::survey(Global, job)?;
        let witness = chan_why::witness_from(Global, &survey)?;
        let text = chan_deck::explanation_text(Global, job, &survey, &witness, &[])?;
        Ok(Explanation {
            verdict: survey.verdict().into(),
            path: witness.path.into(),
            evidence: witness.evidence,
            second_path: witness.second_path.into(),
            text: text.into(),
        })
    })
}

/// What a program needs and may do, or [`Refusal::NoJob`].
pub fn needs(source: &Source) -> Result<Needs, Refusal> {
    let (storage, limit) = (storage_of(source.storage)?, limit_of(source.limit)?);
    let open = OpenJob::over(Global, storage, source.start, source.device, limit);
    let open = open.map_err(no_memory)?;
    let job = open.job();
    let survey = chan_walk::survey(Global, &job).map_err(Error::from)?;
    if let chan_walk::Verdict::No { address, reason } = survey.verdict() {
        return Err(Refusal::NoJob(address, reason));
    }
    let needs = chan_needs::needs_from(Global, &job, &survey).map_err(no_memory)?;
    let remarks = chan_why::remarks_from(Global, &survey).map_err(no_memory)?;
    Ok(Needs {
        mask: needs.mask.byte(),
        extents: needs.extents.into(),
        fetch: needs.fetch.into(),
        store: needs.store.into(),
        keep: needs.keep.into(),
        hangs: remarks.hangs,
        interrupts: remarks.interrupts,
        ends_chaining: remarks.ends_chaining,
    })
}

/// Where in storage the programs start whose starts aren't known, each once, in order.
pub fn find(storage: &[u8], device: Device) -> Result<Vec<u32>, Error> {
    let starts = chan_find::program_starts(Global, &storage_of(storage)?, device);
    Ok(starts.map_err(no_memory)?.into())
}

impl<'a> Source<'a> {
    /// The program that starts at an address, with the usual limit of 4,096 places.
    pub fn new(storage: &'a [u8], start: u32, device: Device) -> Source<'a> {
        Source { storage, start, device, limit: Limit::usual().get() }
    }
}

impl Job<'_> {
    /// Asks about the job as the sources have it, or says what is wrong with it.
    fn ask<T>(
        &self,
        ask: impl FnOnce(&chan_walk::Job) -> Result<T, WalkError>,
    ) -> Result<T, Error> {
        let Source { storage, start, device, limit } = self.source;
        let storage = storage_of(storage)?;
        let mask = FileMask::new(self.mask).ok_or(Error::NotAMask(self.mask))?;
        let extents = chan_needs::pairs_of(Global, self.extents).map_err(no_memory)?;
        let job = chan_walk::Job {
            storage,
            start,
            device,
            mask,
            extents: &Extents::new(Global, &extents).map_err(|error| match error {
                ExtentError::Empty => Error::NoExtent,
                ExtentError::Backwards(at) => Error::ExtentBackwards(at),
                ExtentError::PastDevice(at) => Error::ExtentPastDevice(at),
                ExtentError::Memory => Error::Memory,
            })?,
            fetch: self.fetch,
            store: self.store,
            limit: limit_of(limit)?,
        };
        Ok(ask(&job)?)
    }
}

fn no_memory<E>(_refused: E) -> Error {
    Error::Memory
}

fn storage_of(bytes: &[u8]) -> Result<Storage<'_>, Error> {
    Storage::new(bytes).map_err(|_| Error::StorageTooLarge)
}

fn limit_of(places: u32) -> Result<Limit, Error> {
    Limit::new(places).ok_or(Error::NotALimit(places))
}

impl From<chan_walk::Verdict> for Verdict {
    fn from(verdict: chan_walk::Verdict) -> Verdict {
        match verdict {
            chan_walk::Verdict::Yes => Verdict::Yes,
            chan_walk::Verdict::No { address, reason } => Verdict::No { address, reason },
        }
    }
}

impl fmt::Display for Verdict {
    fn fmt(&self, f: &mut fmt::Formatter<'_>) -> fmt::Result {
        match self {
            Verdict::Yes => f.write_str("yes"),
            Verdict::No { address, reason } => write!(f, "no {address:06X} {}", reason.word()),
        }
    }
}

impl fmt::Display for Explanation {
    fn fmt(&self, f: &mut fmt::Formatter<'_>) -> fmt::Result {
        f.write_str(&self.text)
    }
}

#[doc(hidden)]
impl From<WalkError> for Error {
    fn from(error: WalkError) -> Error {
        match error {
            WalkError::TooManyPlaces => Error::TooManyPlaces,
            WalkError::Memory => Error::Memory,
        }
    }
}

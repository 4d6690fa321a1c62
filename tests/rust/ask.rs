//! Each fault of a job, each refusal and each kind of row of the library for Rust, a line for each.

use chanv::{Allowed, Area, Conflict, Device, Entry, Evidence, Extent, FileMask, GivenBytes, Job};
use chanv::{Outside, Place, Program, Reason, Refusal, Row, Source, StartRefusal};
use chanv::{find, may_start, may_write, needs, take_in, verify, why};
use std::error::Error;
use std::fmt::Debug;

const ALL: [Area; 1] = [Area { start: 0, len: 0x1000 }];
const NOTHING: Allowed = Allowed { hangs: false, interrupts: false, ends_chaining: false };

/// Storage with CCWs from 000800 on.
fn storage(ccws: &[u64]) -> Vec<u8> {
    let mut storage = vec![0; 0x1000];
    for (at, ccw) in ccws.iter().enumerate() {
        storage[0x800 + 8 * at..][..8].copy_from_slice(&ccw.to_be_bytes());
    }
    storage
}

fn tell(name: &str, answer: Result<impl Debug, impl Error>) {
    match answer {
        Ok(answer) => println!("{name}: {answer:X?}"),
        Err(error) => println!("{name}: refused, {error}"),
    }
}

/// Whether a type can be printed, also of another crate. If it can't, this doesn't compile.
fn can_be_printed<T: Debug>() {}

/// Whether threads can share a type.
fn can_be_shared<T: Send + Sync>() {}

/// What it comes to, without the answer, whose Debug form is long.
fn outcome<E: Error>(answer: Result<impl Debug, E>) -> Result<(), E> {
    answer.map(|_| ())
}

fn main() -> Result<(), Box<dyn Error>> {
    let bytes = storage(&[0x3100_0900_4000_0005, 0x0800_0800_0000_0000, 0x0600_0A00_2000_0050]);
    let source = Source::new(&bytes, 0x800, Device::D2314);
    let extents = [Extent { first: 10, last: 19 }];
    let job = Job { source, mask: 0, extents: &extents, fetch: &ALL, store: &ALL };
    println!("version: {}", chanv::VERSION);
    can_be_printed::<(Area, Conflict, Device, Entry, Evidence, Extent)>();
    can_be_printed::<(FileMask, GivenBytes, Outside, Place, Reason, StartRefusal)>();
    can_be_shared::<(Job, Program, Row, Refusal)>();

    tell("yes", verify(&job));
    tell("no", verify(&Job { store: &[], ..job }));
    tell("why", why(&Job { store: &[], ..job }).map(|why| (why.path, why.evidence)));
    let changes = storage(&[0x0700_0900_4000_0006, 0x0600_0900_2000_0010]);
    let changing = Source { storage: &changes, ..source };
    let inside = [Extent { first: 0, last: 0 }];
    let job_of_change = Job { source: changing, extents: &inside, ..job };
    tell("second path", why(&job_of_change).map(|why| (why.verdict, why.second_path)));
    tell("starts", find(&bytes, Device::D2314));
    tell("no programs", find(&[], Device::D2311));

    let large = vec![0; 16_777_217];
    tell("storage", verify(&Job { source: Source { storage: &large, ..source }, ..job }));
    tell("starts in large storage", find(&large, Device::D2314));
    tell("mask", verify(&Job { mask: 1, ..job }));
    tell("no extent", verify(&Job { extents: &[], ..job }));
    let wrong = [extents[0], Extent { first: 3, last: 2 }];
    tell("backwards", verify(&Job { extents: &wrong, ..job }));
    let wrong = [extents[0], extents[0], Extent { first: 3, last: 203 }];
    tell("past", verify(&Job { extents: &wrong, ..job }));
    for limit in [0, 1, 65_537] {
        let source = Source { limit, ..source };
        tell(&format!("limit {limit}"), verify(&Job { source, ..job }));
        tell(&format!("needs, limit {limit}"), outcome(needs(&source)));
    }

    // own areas may overlap, adjoin, lie in any order and reach past storage
    let parts = [(0x80C, 0xFFFF_F000), (0x7F0, 0x14), (0x804, 8), (0, 0)];
    let parts = parts.map(|(start, len)| Area { start, len });
    tell("own parts", outcome(take_in(&source, &parts, NOTHING)));
    tell("own gap", outcome(take_in(&source, &parts[..2], NOTHING)));
    tell("own nothing", outcome(take_in(&source, &[], NOTHING)));
    let none = storage(&[0]);
    tell("no job", outcome(take_in(&Source { storage: &none, ..source }, &ALL, NOTHING)));

    // each allowed by itself, over programs that do one such thing, and over one that does all
    let hangs = storage(&[0x0300_0A00_6000_0001, 0x0800_0800_0000_0000]);
    let interrupts = storage(&[0x0600_0A00_2800_0050]);
    let ends = storage(&[0x0300_0A00_A000_0001, 0x0600_0A00_2000_0050]);
    let all = storage(&[
        0x3100_0900_4800_0005,
        0x0800_0818_0000_0000,
        0x0300_0A00_A000_0001,
        0x0300_0A00_6000_0001,
        0x0800_0818_0000_0000,
    ]);
    let allowed = [
        ("nothing", NOTHING),
        ("hangs", Allowed { hangs: true, ..NOTHING }),
        ("interrupts", Allowed { interrupts: true, ..NOTHING }),
        ("ends", Allowed { ends_chaining: true, ..NOTHING }),
        ("all but hangs", Allowed { interrupts: true, ends_chaining: true, ..NOTHING }),
        ("all", Allowed { hangs: true, interrupts: true, ends_chaining: true }),
    ];
    for (name, allowed) in allowed {
        let programs = [
            ("hanging", Source { storage: &hangs, ..source }),
            ("interrupting", Source { storage: &interrupts, ..source }),
            ("ending", Source { storage: &ends, ..source }),
            ("doing all", Source { storage: &all, ..source }),
        ];
        for (program, source) in programs {
            tell(&format!("{program}, allowed {name}"), outcome(take_in(&source, &ALL, allowed)));
        }
    }

    // the program of the first page, asked about under jobs that don't fit
    let program = take_in(&source, &ALL, Allowed::default())?;
    println!("keeps: {:X?}", program.needs().keep);
    let mut changed = bytes.clone();
    changed[0x812] ^= 1;
    let short = &bytes[..0xFF8];
    let jobs = [
        ("as it is", job),
        ("other start", Job { source: Source { start: 0x810, ..source }, ..job }),
        ("other device", Job { source: Source { device: Device::D2311, ..source }, ..job }),
        ("other length", Job { source: Source { storage: short, ..source }, ..job }),
        ("changed", Job { source: Source { storage: &changed, ..source }, ..job }),
        ("not fetchable", Job { fetch: &[], ..job }),
        ("not storable", Job { store: &[], ..job }),
        ("mask 01", Job { mask: 1, ..job }),
    ];
    for (name, job) in jobs {
        tell(&format!("start, {name}"), outcome(may_start(&program, &job, &[])));
    }
    let on_2311 = Source { device: Device::D2311, ..source };
    let smaller = take_in(&on_2311, &ALL, NOTHING)?;
    tell("start on a 2311", outcome(may_start(&smaller, &Job { source: on_2311, ..job }, &[])));
    tell("start on a 2314 instead", outcome(may_start(&smaller, &job, &[])));
    let seeks = storage(&[0x0700_0900_4000_0006, 0x0500_0A00_0000_0050]);
    let source = Source { storage: &seeks, ..source };
    let seeking = take_in(&source, &ALL, NOTHING)?;
    tell("start, cylinder", outcome(may_start(&seeking, &Job { source, ..job }, &[])));
    let job_of_seek = Job { source, extents: &inside, ..job };
    tell("start, mask", outcome(may_start(&seeking, &Job { mask: 0x58, ..job_of_seek }, &[])));
    tell("start, seek", outcome(may_start(&seeking, &job_of_seek, &[])));

    // a program in flight, a write that lasts, and bytes that stay
    let mut table = vec![may_start(&program, &job, &[])?];
    let at = |start| Area { start, len: 1 };
    tell("write before it", may_write(&table, at(0x7FF)));
    tell("write over it", may_write(&table, at(0x817)));
    tell("lasting write over it", outcome(Row::writing(&table, at(0x817))));
    tell("keep what it stores", outcome(Row::keeping(&table, at(0xA4F))));
    table.push(Row::writing(&table, at(0x902))?);
    tell("write beside a write", may_write(&table, at(0x902)));
    tell("start, written meanwhile", outcome(may_start(&seeking, &job_of_seek, &table)));
    tell("keep what is written", outcome(Row::keeping(&table, at(0x902))));
    table[1] = Row::keeping(&table[..1], at(0xA50))?;
    tell("write over kept", may_write(&table, at(0xA50)));
    tell("start again", outcome(may_start(&program, &job, &table)));
    table[1] = Row::keeping(&[], at(0xA4F))?;
    tell("start, stores over kept", outcome(may_start(&program, &job, &table)));
    Ok(())
}

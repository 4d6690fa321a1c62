//! `find` and `deck` over an image. The first bytes of the input choose the options.

use crate::{Came, ask, came, check_least};
use ccw_core::{Area, Watched};
use chan_args::{Action, ImageOptions, RequestedJob};
use chan_run::{Outcome, find_programs, make_deck};
use ckd_core::{Device, Extents, FileMask};
use kit::alloc::Global;
use kit::vec::Vec;

/// How many bytes choose the options, and how many of the starts that are found get a deck.
const CHOICES: usize = 8;
const STARTS: usize = 3;

fn options(choices: &[u8], start: u32, job: RequestedJob) -> ImageOptions {
    let [kind, mask, limit, one, other, last, at, size] = *choices else { unreachable!() };
    let area = |page: u8, len: u8| Area { start: 0x100 * u32::from(page), len: 16 * u32::from(len) };
    let last = u16::from(last) % 203;
    ImageOptions {
        device: if kind & 1 == 0 { Device::D2314 } else { Device::D2311 },
        mask: FileMask::new(mask & 0xD8).unwrap(),
        start,
        limit: if kind & 2 == 0 { None } else { Some(1 + 7 * u32::from(limit)) },
        extents: Extents::new(Global, &[(last / 2, last)]).ok().unwrap(),
        fetch: Vec::from_array(Global, [area(one, other)]).ok().unwrap(),
        store: Vec::from_array(Global, [area(other, one)]).ok().unwrap(),
        at: match kind >> 2 & 3 {
            0 => 0,
            1 => 0x800,
            2 => 8 * u32::from(at),
            _ => u32::from(at),
        },
        size: if kind & 16 == 0 { None } else { Some(0x1000 + 16 * u32::from(size)) },
        gaps: Vec::new(Global),
        job,
    }
}

/// What a command that reads an image writes, and what it came to.
fn over(
    image: &[u8],
    command: impl FnOnce(&mut Watched<&[u8]>, &mut Watched<Vec<u8>>, &mut Watched<Vec<u8>>) -> Outcome,
) -> (Came, Vec<u8>) {
    let [to, errors] = [Vec::new(Global), Vec::new(Global)];
    let (mut from, mut to, mut errors) = (Watched::new(image), Watched::new(to), Watched::new(errors));
    let outcome = command(&mut from, &mut to, &mut errors);
    (came(&outcome), to.into_inner())
}

pub fn check(input: &[u8]) {
    let Some((choices, image)) = input.split_at_checked(CHOICES) else { return };
    let mut starts = std::vec![0x800, 8 * u32::from(choices[7])];
    starts.extend(starts_found(choices, image).iter().take(STARTS));
    for start in starts {
        for job in [RequestedJob::Named, RequestedJob::Least, RequestedJob::Open] {
            check_deck(choices, image, start, job);
        }
    }
}

/// The starts that `find` lists, which rise.
fn starts_found(choices: &[u8], image: &[u8]) -> std::vec::Vec<u32> {
    let asked = options(choices, 0x800, RequestedJob::Open);
    let (_, listed) = over(image, |from, to, errors| {
        find_programs(Global, None, &asked, from, to, errors)
    });
    let text = std::str::from_utf8(listed.as_slice()).expect("find writes text");
    let address = |line: &str| u32::from_str_radix(line.get(..6)?, 16).ok();
    let starts: std::vec::Vec<u32> = text.lines().filter_map(address).collect();
    assert!(starts.is_sorted_by(|one, next| one < next), "the starts that are found");
    starts
}

/// The deck that is made is a deck; its least job has a yes, and its open job has needs or a no.
fn check_deck(choices: &[u8], image: &[u8], start: u32, job: RequestedJob) {
    let asked = options(choices, start, job);
    let (made, deck) = over(image, |from, to, errors| {
        make_deck(Global, None, &asked, from, to, errors)
    });
    let deck = deck.as_slice();
    match made {
        Came::Done => {}
        Came::NoJob(_) => return assert!(matches!(job, RequestedJob::Least), "no job"),
        _ => return assert!(deck.is_empty(), "a deck after a failure"),
    }
    let verdict = ask(Action::Verify, deck);
    assert!(!matches!(came(&verdict.outcome), Came::Refused(_)), "a deck that was made");
    match job {
        RequestedJob::Named => {}
        RequestedJob::Least => assert_eq!(verdict.output.as_slice(), b"yes\n", "the least job"),
        RequestedJob::Open => {
            let needs = came(&ask(Action::Needs { deck: false }, deck).outcome) == Came::Done;
            assert_eq!(came(&verdict.outcome) == Came::Done, needs, "the open job and needs");
        }
    }
    check_least(deck);
}

//! Answers about decks by the library for Rust, as `chanv verify`, `why` and `needs` do.

use chanv::{Area, Device, Extent, Job, Needs, Refusal, Source};
use std::error::Error;

/// A deck without a fault.
struct Deck {
    storage: Vec<u8>,
    start: u32,
    device: Device,
    limit: u32,
    mask: u8,
    extents: Vec<Extent>,
    fetch: Vec<Area>,
    store: Vec<Area>,
}

fn hex(digits: &str) -> u32 {
    u32::from_str_radix(digits, 16).expect("hexadecimal digits")
}

fn decimal(digits: &str) -> u32 {
    digits.parse().expect("decimal digits")
}

fn area(start: &str, len: &str) -> Area {
    Area { start: hex(start), len: hex(len) }
}

fn read(text: &str) -> Deck {
    let mut deck = Deck {
        storage: Vec::new(),
        start: 0,
        device: Device::D2311,
        limit: 4096,
        mask: 0,
        extents: Vec::new(),
        fetch: Vec::new(),
        store: Vec::new(),
    };
    for line in text.lines() {
        match line.split(' ').collect::<Vec<_>>()[..] {
            ["chanv", "deck", _] | ["device", "2311"] | ["end"] => {}
            ["device", "2314"] => deck.device = Device::D2314,
            ["mask", byte] => deck.mask = hex(byte) as u8,
            ["start", address] => deck.start = hex(address),
            ["limit", places] => deck.limit = decimal(places),
            ["extent", first, last] => {
                let (first, last) = (decimal(first) as u16, decimal(last) as u16);
                deck.extents.push(Extent { first, last });
            }
            ["fetch", start, len] => deck.fetch.push(area(start, len)),
            ["store", start, len] => deck.store.push(area(start, len)),
            ["storage", len] => deck.storage = vec![0; hex(len) as usize],
            ["put", address, ccw] => {
                let ccw = u64::from_str_radix(ccw, 16).expect("a CCW");
                deck.storage[hex(address) as usize..][..8].copy_from_slice(&ccw.to_be_bytes());
            }
            _ => panic!("{line}"),
        }
    }
    deck
}

impl Deck {
    fn source(&self) -> Source<'_> {
        Source { limit: self.limit, ..Source::new(&self.storage, self.start, self.device) }
    }

    fn job(&self) -> Job<'_> {
        let Deck { extents, fetch, store, mask, .. } = self;
        Job { source: self.source(), mask: *mask, extents, fetch, store }
    }
}

/// What a program needs, or the first line of why no job will do.
fn lines(found: Result<Needs, Refusal>) -> Result<String, Refusal> {
    let needs = match found {
        Ok(needs) => needs,
        Err(Refusal::NoJob(address, reason)) => {
            return Ok(format!("no {address:06X} {}\n", reason.word()));
        }
        Err(refusal) => return Err(refusal),
    };
    let mut lines = format!("mask {:02X}\n", needs.mask);
    for Extent { first, last } in needs.extents {
        lines += &format!("extent {first:03} {last:03}\n");
    }
    for (name, areas) in [("fetch", needs.fetch), ("store", needs.store), ("keep", needs.keep)] {
        for Area { start, len } in areas {
            lines += &format!("{name} {start:06X} {len:06X}\n");
        }
    }
    Ok(lines)
}

fn answer(command: &str, deck: &Deck) -> Result<String, Box<dyn Error>> {
    Ok(match command {
        "verify" => match chanv::verify(&deck.job()) {
            Ok(()) => String::from(" yes\n"),
            Err(no @ Refusal::No(..)) => format!(" {no}\n"),
            Err(refusal) => return Err(refusal.into()),
        },
        "why" => format!(" {}", chanv::why(&deck.job())?),
        "needs" => format!("\n{}", lines(chanv::needs(&deck.source()))?),
        _ => panic!("{command}"),
    })
}

fn main() {
    let mut words = std::env::args().skip(1);
    let command = words.next().expect("a command");
    for name in words {
        let text = std::fs::read_to_string(&name).expect("a file");
        match answer(&command, &read(&text)) {
            Ok(said) => print!("{name}:{said}"),
            Err(error) => eprintln!("chanv: {name}: {error}"),
        }
    }
}

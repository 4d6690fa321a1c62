//! Every command over one text, which may be a deck.

use crate::{Came, ask, came, check_least};
use chan_args::{Action, Asked};
use chan_deck::{read_deck, write_deck};
use kit::alloc::Global;

/// More storage takes long, and shows no more.
const MOST_STORAGE: u32 = 65536;

const OF_THE_VERDICT: [Action; 5] = [
    Action::List { wide: false },
    Action::List { wide: true },
    Action::Graph,
    Action::Why(Asked::First),
    Action::Why(Asked::All),
];

pub fn check(text: &[u8]) {
    let deck = read_deck(Global, text);
    if deck.as_ref().is_ok_and(|deck| deck.job().storage.len() > MOST_STORAGE) {
        return;
    }
    let verdict = ask(Action::Verify, text);
    let (line, of_verdict) = (verdict.output.as_slice(), came(&verdict.outcome));
    assert_eq!(deck.is_err(), matches!(of_verdict, Came::Refused(_)), "what is a deck");
    match of_verdict {
        Came::Done => assert_eq!(line, b"yes\n"),
        Came::Denied => assert!(line.starts_with(b"no ")),
        _ => assert!(line.is_empty()),
    }
    if let Ok(deck) = &deck {
        check_written(deck, line);
    }
    check_commands(text, line, of_verdict);
    check_needs(text, of_verdict);
    if of_verdict == Came::Denied {
        check_offence(text, line);
    }
}

/// A deck that is written is read again, and is written the same, with the same verdict.
fn check_written(deck: &chan_deck::Deck, line: &[u8]) {
    let written = write_deck(Global, deck).ok().unwrap();
    let again = read_deck(Global, written.as_slice()).ok().expect("a written deck is refused");
    let second = write_deck(Global, &again).ok().unwrap();
    assert_eq!(written.as_slice(), second.as_slice(), "a deck, written again");
    assert_eq!(ask(Action::Verify, written.as_slice()).output.as_slice(), line);
}

/// Listings end with the verdict's line, explanations begin with it, and all come to the same.
fn check_commands(text: &[u8], line: &[u8], of_verdict: Came) {
    for action in OF_THE_VERDICT {
        let response = ask(action, text);
        assert_eq!(came(&response.outcome), of_verdict, "a command and the verdict");
        let output = response.output.as_slice();
        if matches!(of_verdict, Came::Done | Came::Denied) {
            match action {
                Action::List { wide: false } => assert!(output.ends_with(line), "a listing"),
                Action::Why(_) => assert!(output.starts_with(line), "an explanation"),
                _ => {}
            }
        }
    }
}

/// A program with a yes has needs.
fn check_needs(text: &[u8], of_verdict: Came) {
    let [needs, least] = [false, true].map(|deck| came(&ask(Action::Needs { deck }, text).outcome));
    assert_eq!(needs, least, "needs and the least job");
    if of_verdict == Came::Done {
        assert_eq!(needs, Came::Done, "a yes without needs");
    }
    check_least(text);
}

/// `why --of` with the address of the verdict begins with the verdict, and any address is answered.
fn check_offence(text: &[u8], line: &[u8]) {
    let digits = std::str::from_utf8(&line[3..9]).unwrap();
    let address = u32::from_str_radix(digits, 16).unwrap();
    let why = ask(Action::Why(Asked::At(address)), text);
    assert_eq!(came(&why.outcome), Came::Denied);
    assert!(why.output.as_slice().starts_with(line), "the offence of the verdict");
    ask(Action::Why(Asked::At(address.wrapping_add(8))), text);
}

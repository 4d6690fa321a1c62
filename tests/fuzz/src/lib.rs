//! Inputs for every command of the program, and oracles over what the commands say together.

mod decks;
mod images;

use chan_args::Action;
use chan_run::{Naming, Outcome, Response, respond};
use kit::alloc::Global;

/// What a command answers to a deck without a name.
fn ask(action: Action, deck: &[u8]) -> Response {
    respond(Global, Naming { name: None, is_among: false }, action, deck)
}

/// What a command came to: what its status says, and a line or an address.
#[derive(Clone, Copy, PartialEq, Debug)]
enum Came {
    Done,
    Denied,
    Refused(u64),
    NoJob(u32),
    Failed,
}

fn came(outcome: &Outcome) -> Came {
    match outcome {
        Outcome::Done => Came::Done,
        Outcome::Denied => Came::Denied,
        Outcome::Refused { line, .. } => Came::Refused(*line),
        Outcome::NoJob { address, .. } => Came::NoJob(*address),
        Outcome::Unknown(_) | Outcome::Failed(_) => Came::Failed,
    }
}

/// The least job of a deck, if there is one, is judged yes, and is its own least job.
fn check_least(deck: &[u8]) {
    let least = ask(Action::Needs { deck: true }, deck);
    if came(&least.outcome) == Came::Done {
        let least = least.output.as_slice();
        assert_eq!(ask(Action::Verify, least).output.as_slice(), b"yes\n", "the least job");
        let again = ask(Action::Needs { deck: true }, least);
        assert_eq!(again.output.as_slice(), least, "the least job of the least job");
    }
}

/// # Safety
///
/// `len` bytes are at `at`.
unsafe fn input<'a>(at: *const u8, len: usize) -> &'a [u8] {
    unsafe { kit::c::list(at, len) }
}

#[unsafe(no_mangle)]
extern "C" fn over_deck(at: *const u8, len: usize) {
    decks::check(unsafe { input(at, len) });
}

#[unsafe(no_mangle)]
extern "C" fn over_image(at: *const u8, len: usize) {
    images::check(unsafe { input(at, len) });
}

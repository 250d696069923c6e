//! A list of starts and usage reports, on the proved session and on the hand-written one.
use crate::charger::*;

/// As the crate `batch` declares it.
#[repr(C)]
#[derive(Clone, Copy)]
pub struct Call {
    pub is_usage: bool,
    pub rating_group: u32,
    pub uplink: u32,
    pub downlink: u32,
    pub time: u32,
}

unsafe extern "C" {
    /// The crate `batch_c`: it asks nothing of the calls. A slice goes as a pointer and a length.
    fn batch_accepted(calls: *const Call, length: usize) -> u64;
}

/// How many of the calls the proved session accepts.
pub fn proved(calls: &[Call]) -> u64 {
    // The pointer and the length are those of one slice, which is only read.
    unsafe { batch_accepted(calls.as_ptr(), calls.len()) }
}

/// How many of the calls the hand-written session accepts.
pub fn plain(calls: &[Call]) -> u64 {
    let (mut session, _) = Session::new(Method::Converged, 7, [0; 5]);
    let mut book = Book { entries: Vec::with_capacity(1), places: 1, up: true, profile: Vec::new() };
    if session.open(0, &mut book).is_err() {
        return 0;
    }
    book.up = false;
    let mut accepted = 0;
    for call in calls {
        let in_range = call.rating_group <= 65_535;
        let id = in_range.then_some(Id { kind: 4, code: call.rating_group as u64 * 131_072 });
        let answer = if call.is_usage {
            session.usage(id, call.uplink, call.downlink, call.time, &mut book)
        } else {
            session.start(id, call.time, &mut book)
        };
        accepted += answer.is_ok() as u64;
    }
    let last = session.last();
    session.shelve(last).expect("an open session");
    accepted
}

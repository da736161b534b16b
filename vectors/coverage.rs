//! Which tests of the step table, which refusals and which other cases the scripts reach. A maker that leaves one out fails.

use std::cell::RefCell;
use std::collections::BTreeMap;

thread_local! {
    static SEEN: RefCell<BTreeMap<String, usize>> = const { RefCell::new(BTreeMap::new()) };
}

pub fn seen(what: &str) {
    SEEN.with(|s| *s.borrow_mut().entry(what.to_string()).or_insert(0) += 1);
}

/// What is done here counts as reached by no script.
pub fn quietly<T>(what: impl FnOnce() -> T) -> T {
    let before = SEEN.with(|s| s.borrow().clone());
    let answer = what();
    SEEN.with(|s| *s.borrow_mut() = before);
    answer
}

pub fn seen_in(what: &str, number: u8) {
    seen(&format!("{what} {number:02}"));
}

const OPENINGS: &[&str] = &["opened", "already open", "opening: refusal 1", "opening: refusal 4", "already open: refusal 1", "opening: 1 before 4"];

const ROWS: &[&str] = &[
    "Opening: unfinished",
    "Opening: W",
    "Opening: skipped",
    "Opening: refusal 19",
    "Turn: first status",
    "Turn: interval passed",
    "Turn: interval not passed",
    "Drain: read",
    "Drain: read, exactly 5 bytes",
    "Drain: read, 255 drained",
    "Drain: 256 drained",
    "Drain: some drained, too few bytes",
    "Drain: some drained, stop",
    "Drain: some drained, no stop",
    "Drain: stop between two messages",
    "Drain: none drained, stop not looked at",
    "Drain: none drained, 4 bytes",
    "Drain: wait, pending",
    "Drain: wait, not pending",
    "Reading: whole",
    "Reading: unfinished",
    "Reading: stop not looked at",
    "Reading: interval not looked at",
    "read: a header begun before goes on",
    "read: a payload begun before goes on",
    "Waiting: stop",
    "Waiting: pending, interval passed",
    "Waiting: pending, signalled, interval not passed",
    "Waiting: signalled",
    "Waiting: whole",
    "Waiting: unfinished, idle passed",
    "Waiting: nothing to read, idle passed",
    "Waiting: unfinished, stays",
    "Waiting: nothing to read, stays",
    "Waiting: broken off in a header",
    "Waiting: broken off in a payload",
    "Handling: skipped",
    "Handling: keepalive",
    "Handling: keepalive, reply asked",
    "Handling: Begin",
    "Handling: Commit",
    "Handling: Message",
    "Handling: other data",
    "Handling: refusal 19",
    "Handling: CopyDone, drained",
    "Handling: CopyDone, read in a wait",
    "Handling: CopyDone, stop",
    "Handling: CopyDone, queue full",
    "Handling: CopyDone, queue closed",
    "Handling: CopyDone, interval passed",
    "Handling: CopyDone, position above the last sent",
    "back to drain",
    "back to turn",
];

/// Pairs of a wait's tests that can apply at once, in the order in which they count.
const WAITS: &[(&str, &[&str])] = &[
    ("stop", &["pending", "signalled", "bytes", "end", "idle"]),
    ("pending", &["bytes", "end", "idle"]),
    ("signalled", &["bytes", "end", "idle"]),
    ("bytes", &["idle"]),
    ("end", &["idle"]),
];

const OFFERS: &[&str] = &[
    "first try, Free",
    "first try, Closed",
    "first try, Free, stop not looked at",
    "first try, Closed, stop not looked at",
    "first try, Full, stop",
    "first try, Full, interval passed",
    "first try, Full, stays",
    "stalled, Full, stop",
    "stalled, Free, stop",
    "stalled, Closed, stop",
    "stalled, Free",
    "stalled, Closed",
    "stalled, Full, interval passed",
    "stalled, Full, stays",
];

const CASES: &[&str] = &[
    "refusal 2 before 3",
    "refusal 3 before 4",
    "refusal 4 before 5",
    "moment 0",
    "moment above its range",
    "moment before the last",
    "moment equal to the last",
    "stop position: keepalive at or above goes on",
    "stop position: Commit's first position at or above, its end below",
    "report on an ended run",
    "report of the same position",
    "report of a lower position",
    "report that raises",
    "report that raises to another file",
    "report of a file that is ahead",
    "report of a file that is not alone behind",
    "report of no file",
    "report of no file on an ended run",
    "report that stores",
    "report that stores none",
    "report with a moment stored",
    "timing: no rise",
    "timing: a rise, none stored",
    "timing: the stored moment lies ahead",
    "timing: a waiting time",
    "timing: told by the first status",
    "timing: told by a later status",
];

/// What a page shows, and into what.
const PAGES: &[&str] = &[
    "before the first status",
    "a status was sent",
    "SERVER is not last_wal_end",
    "an output too short",
    "an output just long enough",
    "an output that is longer",
];

/// Everything that must be reached.
pub fn owed() -> Vec<String> {
    let mut all: Vec<String> = [OPENINGS, ROWS, CASES].concat().iter().map(|s| s.to_string()).collect();
    for (upper, lowers) in WAITS {
        all.extend(lowers.iter().map(|lower| format!("Waiting: {upper} before {lower}")));
    }
    for what in ["event", "StoppedAt"] {
        all.extend(OFFERS.iter().map(|how| format!("Offering {what}: {how}")));
    }
    for name in ["Begin", "Commit", "Message", "other data"] {
        all.extend(["at", "above", "one below", "below"].map(|how| format!("stop position: {name} {how}")));
    }
    for state in ["Opening", "Reading", "Waiting"] {
        all.extend((6..=9).map(|n| format!("{state}: refusal {n}")));
    }
    for state in ["Opening", "Turn", "Drain", "Reading", "Waiting", "Handling", "Offering"] {
        all.extend([4, 5].map(|n| format!("{state}: turned back with {n}")));
    }
    for state in ["Opening", "Turn", "Drain", "Reading", "Waiting", "Handling", "Offering", "Ended"] {
        all.push(format!("page: {state}"));
    }
    all.extend(PAGES.iter().map(|what| format!("page: {what}")));
    all.extend(["Opening: turned back with 3", "Turn: turned back with 3"].map(String::from));
    all.extend((10..=18).map(|n| format!("Handling: refusal {n}")));
    all.extend((1..=19).map(|n| format!("refusal {n:02}")));
    all
}

/// The counts of all that was reached, and what was not.
pub fn counts() -> (BTreeMap<String, usize>, Vec<String>) {
    let reached = SEEN.with(|s| s.borrow().clone());
    let missing = owed().into_iter().filter(|what| !reached.contains_key(what)).collect();
    (reached, missing)
}

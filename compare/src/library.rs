//! The functions of the linked library, and safe ones over them.

#![allow(unsafe_code)]

/// The most slips that a run is lent of a table or a sheet.
pub const MOST_SLIPS: usize = 40;

/// The most entries of a list that a book reads.
pub const MOST_ENTRIES: usize = 2_048;

/// A rule as it is asked for.
#[repr(C)]
#[derive(Clone, Copy, Debug, PartialEq, Eq)]
pub struct RuleNumbers {
    /// How many boxes.
    pub boxes: usize,
    /// 0 majority, 1 thirds, any other sizes.
    pub base: u32,
    /// Of sizes, how many boxes are a quorum.
    pub quorum: usize,
    /// Of sizes, how many boxes are clear.
    pub clear: usize,
    /// 0 for the base itself, any other for it anchored.
    pub anchored: u32,
    /// The box on which it is anchored.
    pub anchor: usize,
}

/// A slip in numbers: a setup v is v + 1, and one dated with phase k is k * 2^32 + v + 1; none is 0.
#[repr(C)]
#[derive(Clone, Copy, Debug, Default, PartialEq, Eq)]
pub struct FlatSlip {
    pub own: u64,
    pub pick: u64,
    pub say: u64,
    pub cast: u64,
    pub news: u64,
    pub held: u64,
    pub dated: u64,
}

unsafe extern "C" {
    fn zotymoi_rule(rule: *const RuleNumbers, set: u32) -> u64;

    fn zotymoi_run(
        rule: *const RuleNumbers,
        procedure: u32,
        proposals: *const u32,
        proposals_len: usize,
        each: usize,
        heard: *const u32,
        heard_len: usize,
        table: *mut FlatSlip,
        table_len: usize,
        sheet: *mut FlatSlip,
        sheet_len: usize,
    ) -> u64;

    fn zotymoi_book(
        boxes: usize,
        rule: *const RuleNumbers,
        list: *mut u64,
        list_len: usize,
        votes: *const u64,
        votes_len: usize,
        each_votes: usize,
        decisions: *const u64,
        decisions_len: usize,
        each_decisions: usize,
    ) -> u64;

    fn zotymoi_seat(
        text: *const u8,
        text_len: usize,
        room: *mut u8,
        room_len: usize,
        written: &mut usize,
    ) -> bool;
}

/// What a run is opened on, and the sets that its boxes hear, `each` to a beat.
#[derive(Clone, Copy, Debug)]
pub struct RunCall<'a> {
    pub proposals: &'a [u32],
    pub each: usize,
    pub heard: &'a [u32],
}

/// Rows of so many votes and so many decisions.
#[derive(Clone, Copy, Debug)]
pub struct Rows<'a> {
    pub votes: &'a [u64],
    pub each_votes: usize,
    pub decisions: &'a [u64],
    pub each_decisions: usize,
}

/// The fault of the rule's making; or else bit 0 for a quorum and bit 1 for a clear set.
pub fn rule(rule: &RuleNumbers, set: u32) -> u64 {
    // SAFETY: the reference is one to a rule for the call.
    unsafe { zotymoi_rule(rule, set) }
}

/// Opens a run of a procedure (0 Fast, 1 Observing, 3 the standard licence, any other Latest) and
/// works its beats. Answers the fault of the last call, 0 if it was taken. The slips of the run are
/// written over the front of table and sheet, whatever it answers.
pub fn run(
    rule: &RuleNumbers,
    procedure: u32,
    call: RunCall,
    table: &mut [FlatSlip],
    sheet: &mut [FlatSlip],
) -> u64 {
    // SAFETY: each pointer and length are those of one slice, which is lent for the call.
    unsafe {
        zotymoi_run(
            rule,
            procedure,
            call.proposals.as_ptr(),
            call.proposals.len(),
            call.each,
            call.heard.as_ptr(),
            call.heard.len(),
            table.as_mut_ptr(),
            table.len(),
            sheet.as_mut_ptr(),
            sheet.len(),
        )
    }
}

/// Opens a book on the list and enters the rows; of each list it reads `MOST_ENTRIES` at most.
/// Answers the fault of the last call, 0 if it was taken.
pub fn book(boxes: usize, rule: &RuleNumbers, list: &mut [u64], rows: Rows) -> u64 {
    // SAFETY: each pointer and length are those of one slice, which is lent for the call.
    unsafe {
        zotymoi_book(
            boxes,
            rule,
            list.as_mut_ptr(),
            list.len(),
            rows.votes.as_ptr(),
            rows.votes.len(),
            rows.each_votes,
            rows.decisions.as_ptr(),
            rows.decisions.len(),
            rows.each_decisions,
        )
    }
}

/// Writes what `seat` prints for the text, and answers whether there is room enough, and how many
/// bytes were written.
pub fn seat(text: &[u8], room: &mut [u8]) -> (bool, usize) {
    let mut written = usize::MAX;
    // SAFETY: each pointer and length are those of one slice, which is lent for the call.
    let fits = unsafe {
        zotymoi_seat(text.as_ptr(), text.len(), room.as_mut_ptr(), room.len(), &mut written)
    };
    (fits, written)
}

//! A window of the station in Rust: calls like those of examples/c/station.c, over the same library.
//! Build and run it with `examples/rust/build`.

/// A facility: its bytes are the library's (include/hvozdalka.h names the fields), and the library says how many there are. Words, so that they are aligned.
#[derive(Clone)]
pub struct Facility(Vec<u32>);

#[repr(C)]
#[derive(Clone, Copy)]
pub struct SetupNumbers {
    pub number: u8,
    pub index: u16,
}

/// A call, with the seat of its process, which is 0.
#[repr(C)]
#[derive(Clone, Copy)]
pub struct Call {
    pub request: u8,
    pub process: u8,
    pub target: u8,
    pub extra: u8,
    pub seat: u8,
}

#[repr(C)]
#[derive(Clone, Copy, Debug, PartialEq)]
pub struct Outcome {
    pub number: u8,
    pub mac: u8,
    pub fc: u8,
    pub sim: u8,
    pub combined: u8,
    pub object: u8,
    pub ff: u8,
}

/// A level and a set of categories, a bit for each.
#[repr(C)]
#[derive(Clone, Copy)]
pub struct Label {
    pub level: u8,
    pub set: u8,
}

#[repr(C)]
#[derive(Clone, Copy)]
pub struct Process {
    pub running: u8,
    pub owner: u8,
    pub current: Label,
    pub readmark: Label,
    pub writemark: Label,
    pub automatic: u8,
    pub moves: u8,
}

extern "C" {
    fn hv_version() -> u32;
    fn hv_facility_size() -> usize;
    fn hv_read_setup_at(bytes: *const u8, length: usize, f: *mut u32) -> SetupNumbers;
    fn hv_query_at(f: *const u32, call: Call) -> Outcome;
    fn hv_enforce_at(f: *mut u32, call: Call) -> Outcome;
    fn hv_process_at(f: *const u32, process: u8) -> Process;
    fn hv_most_moves_at(f: *const u32, user: u8) -> u32;
    fn hv_refusals_at(f: *const u32, user: u8) -> u32;
    fn hv_why_words_at(f: *const u32, call: Call, out: *mut u8, length: usize) -> usize;
    fn hv_label_words(label: Label, out: *mut u8, length: usize) -> usize;
}

/// The version of the declarations above.
const VERSION: u32 = 9;
const LOGIN: u8 = 21;
const READ_OPEN: u8 = 13;
const WRITE_OPEN: u8 = 20;
const WHY_MOST: usize = 212;
const LABEL_MOST: usize = 13;

/// MAC and FF on; one untrusted user of clearance 2 with categories a and b; the open notes (level 0), the restricted hull lines (level 2), a
/// directory of released drawings that is read-only (level 2), and a sheet in it, which inherits (add-inherited 128, parent 2 plus 1); the frames
/// of two projects (level 2 with a, and with b).
const SETUP: [u8; 64] = [
    3, 1, 0, 0, 1, 0, 0, 0, //
    1, 2, 0, 0, 3, 0, 0, 0, //
    2, 0, 0, 0, 0, 0, 0, 0, //
    2, 0, 2, 0, 0, 0, 0, 0, //
    2, 1, 2, 0, 0, 1, 0, 0, //
    2, 0, 2, 0, 0, 128, 3, 0, //
    2, 0, 2, 0, 0, 0, 0, 1, //
    2, 0, 2, 0, 0, 0, 0, 2,
];

/// What a function of the library puts into a buffer of so many bytes.
fn text_of(most: usize, put: impl FnOnce(*mut u8, usize) -> usize) -> String {
    let mut out = vec![0; most];
    let length = put(out.as_mut_ptr(), out.len());
    String::from_utf8_lossy(&out[..length]).into_owned()
}

impl std::fmt::Display for Label {
    /// The level, and a letter for each category, or "all".
    fn fmt(&self, out: &mut std::fmt::Formatter) -> std::fmt::Result {
        out.write_str(&text_of(LABEL_MOST, |at, length| unsafe { hv_label_words(*self, at, length) }))
    }
}

impl Facility {
    /// The fresh facility of a set-up, or the refusal number and the index of the record.
    pub fn read(setup: &[u8]) -> Result<Facility, (u8, u16)> {
        // Safe: the pointer and the length are those of a slice, the facility has the bytes that the library asks for, and the function is total.
        let mut f = Facility(vec![0; unsafe { hv_facility_size() }.div_ceil(4)]);
        let r = unsafe { hv_read_setup_at(setup.as_ptr(), setup.len(), f.0.as_mut_ptr()) };
        if r.number == 0 { Ok(f) } else { Err((r.number, r.index)) }
    }

    pub fn query(&self, call: Call) -> Outcome {
        unsafe { hv_query_at(self.0.as_ptr(), call) }
    }

    pub fn enforce(&mut self, call: Call) -> Outcome {
        unsafe { hv_enforce_at(self.0.as_mut_ptr(), call) }
    }

    pub fn process(&self, process: u8) -> Process {
        unsafe { hv_process_at(self.0.as_ptr(), process) }
    }

    /// How often at most the label of a user's process moves by itself.
    pub fn most_moves(&self, user: u8) -> u32 {
        unsafe { hv_most_moves_at(self.0.as_ptr(), user) }
    }

    /// The conditions that failed where this call is refused with 12 or 13, in words; else nothing.
    pub fn why(&self, call: Call) -> String {
        text_of(WHY_MOST, |at, length| unsafe { hv_why_words_at(self.0.as_ptr(), call, at, length) })
    }

    /// The calls refused with 12 or 13 whose caller the user owned.
    pub fn refusals(&self, user: u8) -> u32 {
        unsafe { hv_refusals_at(self.0.as_ptr(), user) }
    }
}

fn main() {
    if unsafe { hv_version() } != VERSION {
        println!("the library is not that of these declarations");
        std::process::exit(1);
    }
    let mut f = match Facility::read(&SETUP) {
        Ok(f) => f,
        Err((number, index)) => {
            println!("set-up refused with {number} at record {index}");
            std::process::exit(1);
        }
    };
    for (words, request, target) in [
        ("login of user 0 at process 0", LOGIN, 0),
        ("open the hull lines for reading", READ_OPEN, 1),
        ("open the notes for writing", WRITE_OPEN, 0),
        ("open the released sheet for writing", WRITE_OPEN, 3),
        ("open the frames of project a for reading", READ_OPEN, 4),
        ("open the frames of project b for reading", READ_OPEN, 5),
        ("open the frames of project b for writing", WRITE_OPEN, 5),
    ] {
        let call = Call { request, process: 0, target, extra: 0, seat: 0 };
        let foretold = f.query(call);
        let why = f.why(call);
        let outcome = f.enforce(call);
        assert_eq!(foretold, outcome);
        let p = f.process(0);
        println!(
            "{words}: number {}{why}; current {}, read mark {}, write mark {}; moves {} of at most {}",
            outcome.number,
            p.current,
            p.readmark,
            p.writemark,
            p.moves,
            f.most_moves(p.owner)
        );
    }
    println!("refusals of user 0: {}", f.refusals(0));
}

//! The library's C interface, and the same functions over slices.

/// Number 0 is acceptance. `count` is how many tones, codes or bytes of a sentence were written.
#[repr(C)]
#[derive(Clone, Copy, Debug, Default, PartialEq, Eq)]
pub struct Answer {
    pub number: u32,
    pub place: u32,
    pub lead: u32,
    pub count: u32,
}

/// The record of a character: its winning word and its runner-up, each with its signed correlation.
#[repr(C)]
#[derive(Clone, Copy, Debug, Default, PartialEq, Eq)]
pub struct Character {
    pub code: u32,
    pub lead: u32,
    pub word: u32,
    pub correlation: i32,
    pub next: u32,
    pub next_correlation: i32,
}

#[repr(C)]
#[derive(Clone, Copy, Debug, Default, PartialEq, Eq)]
pub struct Block {
    pub answer: Answer,
    pub characters: [Character; 8],
}

/// Number 0: `start` is that of the block found, and the records are its own.
#[repr(C)]
#[derive(Clone, Copy, Debug, Default, PartialEq, Eq)]
pub struct Found {
    pub answer: Answer,
    pub start: u32,
    pub characters: [Character; 8],
}

/// Number 0: no tone is bad. `looked` is how many tones were looked at.
#[repr(C)]
#[derive(Clone, Copy, Debug, Default, PartialEq, Eq)]
pub struct Looked {
    pub number: u32,
    pub place: u64,
    pub looked: u64,
}

#[repr(C)]
#[derive(Clone, Copy, Debug, Default, PartialEq)]
pub struct Hertz {
    pub number: u32,
    pub place: u32,
    pub hertz: f64,
}

/// Number 0: `tone` owns the measurement, and `hertz_off` is how far above that tone's frequency this is.
#[repr(C)]
#[derive(Clone, Copy, Debug, Default, PartialEq)]
pub struct Located {
    pub number: u32,
    pub place: u32,
    pub tone: u32,
    pub hertz_off: f64,
}

#[repr(C)]
#[derive(Clone, Copy, Debug, Default, PartialEq, Eq)]
pub struct Trial {
    pub encoded: Answer,
    pub first: Answer,
    pub second: Answer,
    pub replaced: u32,
    pub missing: u32,
}

#[repr(C)]
#[derive(Clone, Copy, Debug, Default, PartialEq, Eq)]
pub struct WeightedTrial {
    pub encoded: Answer,
    pub first: Answer,
    pub second: Answer,
    pub damage: u32,
}

/// Number 0: `sums` has the energy of each of the mode's characters, and `total` is what each of these equals.
#[repr(C)]
#[derive(Clone, Copy, Debug, Default, PartialEq, Eq)]
pub struct Energies {
    pub number: u32,
    pub place: u32,
    pub total: u32,
    pub sums: [u32; 8],
}

/// The state of a sender. The caller keeps it, and lends it to each call.
#[repr(C)]
#[derive(Clone, Copy, Debug, PartialEq, Eq)]
pub struct Sender {
    pub bytes: [u8; 1532],
}

/// Number 0: if `count` is 64, a block of this depot was sent, in this mode; if it is 0, none waits.
#[repr(C)]
#[derive(Clone, Copy, Debug, Default, PartialEq, Eq)]
pub struct Sent {
    pub answer: Answer,
    pub depot: u32,
    pub mode: u32,
}

/// The answer's number 0: number, place and lead are those of the refusal that the sentence says.
#[repr(C)]
#[derive(Clone, Copy, Debug, Default, PartialEq, Eq)]
pub struct SentenceRead {
    pub answer: Answer,
    pub number: u32,
    pub place: u32,
    pub lead: u32,
}

mod c {
    use super::{Answer, Block, Energies, Found, Hertz, Located, Looked, Sender, Sent, Trial};
    use super::{SentenceRead, WeightedTrial};

    extern "C" {
        pub fn olivia_encode_block(
            mode: u32,
            codes: *const u8,
            n: usize,
            tones: *mut u16,
            room: usize,
        ) -> Answer;
        pub fn olivia_decode_block(
            mode: u32,
            least_lead: u32,
            tones: *const u16,
            n: usize,
            codes: *mut u8,
            room: usize,
        ) -> Block;
        pub fn olivia_encode_message(
            mode: u32,
            text: *const u8,
            n: usize,
            tones: *mut u16,
            room: usize,
        ) -> Answer;
        pub fn olivia_decode_message(
            mode: u32,
            least_lead: u32,
            tones: *const u16,
            n: usize,
            text: *mut u8,
            room: usize,
        ) -> Answer;
        pub fn olivia_check_tones(mode: u32, tones: *const u16, n: usize) -> Looked;
        pub fn olivia_find_block(
            mode: u32,
            least_lead: u32,
            run: *const u16,
            n: usize,
            codes: *mut u8,
            room: usize,
        ) -> Found;
        pub fn olivia_frequency(mode: u32, width: u32, centre: u32, tone: u16) -> Hertz;
        pub fn olivia_locate(mode: u32, width: u32, centre: u32, hertz: f64) -> Located;
        pub fn olivia_trial_run(
            mode: u32,
            least_lead: u32,
            text: *const u8,
            n: usize,
            heard: *const u16,
            heard_n: usize,
            tones: *mut u16,
            tones_room: usize,
            first: *mut u8,
            first_room: usize,
            second: *mut u8,
            second_room: usize,
        ) -> Trial;
        pub fn olivia_decode_weighted(
            mode: u32,
            least_lead: u32,
            tones: *const u16,
            n: usize,
            weights: *const u8,
            weights_n: usize,
            codes: *mut u8,
            room: usize,
        ) -> Block;
        pub fn olivia_weighted_trial_run(
            mode: u32,
            least_lead: u32,
            text: *const u8,
            n: usize,
            heard: *const u16,
            heard_n: usize,
            weights: *const u8,
            weights_n: usize,
            tones: *mut u16,
            tones_room: usize,
            first: *mut u8,
            first_room: usize,
            second: *mut u8,
            second_room: usize,
        ) -> WeightedTrial;
        pub fn olivia_energy(mode: u32, tones: *const u16, n: usize) -> Energies;
        pub fn olivia_weighted_energy(
            mode: u32,
            tones: *const u16,
            n: usize,
            weights: *const u8,
            weights_n: usize,
        ) -> Energies;
        pub fn olivia_sender_new() -> Sender;
        pub fn olivia_hand_in(
            sender: *mut Sender,
            depot: u32,
            mode: u32,
            codes: *const u8,
            n: usize,
        ) -> Answer;
        pub fn olivia_send(sender: *mut Sender, tones: *mut u16, room: usize) -> Sent;
        pub fn olivia_write_sentence(
            number: u32,
            place: u32,
            lead: u32,
            out: *mut u8,
            room: usize,
        ) -> Answer;
        pub fn olivia_read_sentence(bytes: *const u8, n: usize) -> SentenceRead;
    }
}

// Safety of each call below: a slice's pointer and length are those of memory that the caller may read, and, if lent as mutable,
// write; a mutable one overlaps no other; and the library keeps no pointer. With no elements the pointer may be null, and is.

fn start<T>(values: &[T]) -> *const T {
    if values.is_empty() {
        std::ptr::null()
    } else {
        values.as_ptr()
    }
}

fn start_mut<T>(values: &mut [T]) -> *mut T {
    if values.is_empty() {
        std::ptr::null_mut()
    } else {
        values.as_mut_ptr()
    }
}

pub fn encode_block(mode: u32, codes: &[u8], tones: &mut [u16]) -> Answer {
    let (to, room) = (start_mut(tones), tones.len());
    unsafe { c::olivia_encode_block(mode, start(codes), codes.len(), to, room) }
}

pub fn decode_block(mode: u32, least_lead: u32, tones: &[u16], codes: &mut [u8]) -> Block {
    let (to, room) = (start_mut(codes), codes.len());
    unsafe { c::olivia_decode_block(mode, least_lead, start(tones), tones.len(), to, room) }
}

pub fn encode_message(mode: u32, text: &[u8], tones: &mut [u16]) -> Answer {
    let (to, room) = (start_mut(tones), tones.len());
    unsafe { c::olivia_encode_message(mode, start(text), text.len(), to, room) }
}

pub fn decode_message(mode: u32, least_lead: u32, tones: &[u16], text: &mut [u8]) -> Answer {
    let (to, room) = (start_mut(text), text.len());
    unsafe { c::olivia_decode_message(mode, least_lead, start(tones), tones.len(), to, room) }
}

pub fn check_tones(mode: u32, tones: &[u16]) -> Looked {
    unsafe { c::olivia_check_tones(mode, start(tones), tones.len()) }
}

pub fn find_block(mode: u32, least_lead: u32, run: &[u16], codes: &mut [u8]) -> Found {
    let (to, room) = (start_mut(codes), codes.len());
    unsafe { c::olivia_find_block(mode, least_lead, start(run), run.len(), to, room) }
}

pub fn frequency(mode: u32, width: u32, centre: u32, tone: u16) -> Hertz {
    unsafe { c::olivia_frequency(mode, width, centre, tone) }
}

/// The tone that owns the measured frequency `hertz`, and how far off it is.
pub fn locate(mode: u32, width: u32, centre: u32, hertz: f64) -> Located {
    unsafe { c::olivia_locate(mode, width, centre, hertz) }
}

/// Encodes `text` into `tones`, decodes what was written into `first`, and `heard` into `second`.
pub fn trial_run(
    mode: u32,
    least_lead: u32,
    text: &[u8],
    heard: &[u16],
    tones: &mut [u16],
    first: &mut [u8],
    second: &mut [u8],
) -> Trial {
    unsafe {
        c::olivia_trial_run(
            mode,
            least_lead,
            start(text),
            text.len(),
            start(heard),
            heard.len(),
            start_mut(tones),
            tones.len(),
            start_mut(first),
            first.len(),
            start_mut(second),
            second.len(),
        )
    }
}

pub fn decode_weighted(
    mode: u32,
    least_lead: u32,
    tones: &[u16],
    weights: &[u8],
    codes: &mut [u8],
) -> Block {
    unsafe {
        c::olivia_decode_weighted(
            mode,
            least_lead,
            start(tones),
            tones.len(),
            start(weights),
            weights.len(),
            start_mut(codes),
            codes.len(),
        )
    }
}

/// Encodes `text` into `tones`, decodes what was written with weight 15 throughout into the first of `texts`, and `heard` with
/// `weights` into the second.
pub fn weighted_trial_run(
    mode: u32,
    least_lead: u32,
    text: &[u8],
    heard: &[u16],
    weights: &[u8],
    tones: &mut [u16],
    texts: [&mut [u8]; 2],
) -> WeightedTrial {
    let [first, second] = texts;
    unsafe {
        c::olivia_weighted_trial_run(
            mode,
            least_lead,
            start(text),
            text.len(),
            start(heard),
            heard.len(),
            start(weights),
            weights.len(),
            start_mut(tones),
            tones.len(),
            start_mut(first),
            first.len(),
            start_mut(second),
            second.len(),
        )
    }
}

pub fn energy(mode: u32, tones: &[u16]) -> Energies {
    unsafe { c::olivia_energy(mode, start(tones), tones.len()) }
}

pub fn weighted_energy(mode: u32, tones: &[u16], weights: &[u8]) -> Energies {
    let (from, count) = (start(weights), weights.len());
    unsafe { c::olivia_weighted_energy(mode, start(tones), tones.len(), from, count) }
}

pub fn sender_new() -> Sender {
    unsafe { c::olivia_sender_new() }
}

pub fn hand_in(sender: &mut Sender, depot: u32, mode: u32, codes: &[u8]) -> Answer {
    unsafe { c::olivia_hand_in(sender, depot, mode, start(codes), codes.len()) }
}

pub fn send(sender: &mut Sender, tones: &mut [u16]) -> Sent {
    let (to, room) = (start_mut(tones), tones.len());
    unsafe { c::olivia_send(sender, to, room) }
}

pub fn write_sentence(number: u32, place: u32, lead: u32, out: &mut [u8]) -> Answer {
    let (to, room) = (start_mut(out), out.len());
    unsafe { c::olivia_write_sentence(number, place, lead, to, room) }
}

pub fn read_sentence(bytes: &[u8]) -> SentenceRead {
    unsafe { c::olivia_read_sentence(start(bytes), bytes.len()) }
}

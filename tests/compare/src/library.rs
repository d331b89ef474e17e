//! Calls of the proved static libraries: the only unsafe code. Every call gets an output with known
//! bytes in and around it, and three numbers that it has to set.

use std::arch::asm;
use std::fmt;
use std::hint::black_box;

use crate::markup::events::Reading;
use crate::names::Conversion;
use crate::schema::due::{RECORDS, TEXT};
use crate::schema::limits::Call;
use crate::suite::shown;

/// What an entry answers, with the whole output as it stands afterwards.
#[derive(Clone, PartialEq)]
pub struct Answer {
    pub number: u32,
    pub offset: usize,
    pub place: usize,
    pub n: usize,
    pub output: Vec<u8>,
}

impl fmt::Debug for Answer {
    fn fmt(&self, f: &mut fmt::Formatter<'_>) -> fmt::Result {
        let Answer { number, offset, place, n, output } = self;
        write!(f, "number {number} offset {offset} place {place} n {n} output {}", shown(output))
    }
}

/// A call that wrote where it was lent nothing.
#[derive(Debug, PartialEq)]
pub struct OutOfBounds;

/// What stands in an output of `room` bytes before the call. No answer has bytes of 128 or more, so
/// every byte that is written shows.
pub fn junk(room: usize) -> Vec<u8> {
    (0..room).map(|i| 128 | (i * 7 + 3) as u8).collect()
}

const GUARD: usize = 32;
/// What stands around an output.
const GUARD_BYTE: u8 = 0xa5;

/// One text in, one out: the text, the output, then offset, place and n.
type Entry =
    unsafe extern "C" fn(*const u8, usize, *mut u8, usize, *mut usize, *mut usize, *mut usize) -> u32;

macro_rules! entries {
    ($($function:ident)*) => {
        extern "C" {
            $(fn $function(
                text: *const u8,
                text_len: usize,
                output: *mut u8,
                output_len: usize,
                offset: *mut usize,
                place: *mut usize,
                n: *mut usize,
            ) -> u32;)*
        }
    };
}

entries! {
    sbe_camel_to_snake
    sbe_snake_to_camel
    sbe_camel_to_screaming_snake
    sbe_screaming_snake_to_pascal
    sbe_singular_pascal
    probe_events
}

extern "C" {
    fn sbe_strip_enum_prefix(
        value: *const u8,
        value_len: usize,
        enum_name: *const u8,
        enum_name_len: usize,
        output: *mut u8,
        output_len: usize,
        offset: *mut usize,
        place: *mut usize,
        n: *mut usize,
    ) -> u32;
}

/// A document and the two work buffers in, one text out.
type SchemaEntry = unsafe extern "C" fn(
    *const u8,
    usize,
    *mut u32,
    usize,
    *mut u8,
    usize,
    *mut u8,
    usize,
    *mut usize,
    *mut usize,
    *mut usize,
) -> u32;

macro_rules! schema_entries {
    ($($function:ident)*) => {
        extern "C" {
            $(fn $function(
                document: *const u8,
                document_len: usize,
                records: *mut u32,
                records_len: usize,
                text: *mut u8,
                text_len: usize,
                output: *mut u8,
                output_len: usize,
                offset: *mut usize,
                place: *mut usize,
                n: *mut usize,
            ) -> u32;)*
        }
    };
}

schema_entries! {
    probe_schema
    sbe_xml_to_proto
}

/// Converts a name into an output of `room` bytes; `enum_name` is read by `Strip` alone.
pub fn convert(
    conversion: Conversion,
    value: &[u8],
    enum_name: &[u8],
    room: usize,
) -> Result<Answer, OutOfBounds> {
    let one: Entry = match conversion {
        Conversion::Snake => sbe_camel_to_snake,
        Conversion::Camel => sbe_snake_to_camel,
        Conversion::Screaming => sbe_camel_to_screaming_snake,
        Conversion::Pascal => sbe_screaming_snake_to_pascal,
        Conversion::Singular => sbe_singular_pascal,
        Conversion::Strip => {
            // SAFETY: the pointers and lengths are those of live slices, as `guarded` lends them.
            return guarded(room, |out, len, offset, place, n| unsafe {
                sbe_strip_enum_prefix(
                    value.as_ptr(),
                    value.len(),
                    enum_name.as_ptr(),
                    enum_name.len(),
                    out,
                    len,
                    offset,
                    place,
                    n,
                )
            });
        }
    };
    // SAFETY: as above.
    guarded(room, |out, len, offset, place, n| unsafe {
        one(value.as_ptr(), value.len(), out, len, offset, place, n)
    })
}

/// Reads a document by the proved reader.
pub fn read(document: &[u8]) -> Result<Reading, OutOfBounds> {
    // Each mark of an event goes with a byte of the document.
    let room = 2 * document.len() + 16;
    // SAFETY: as above.
    let answer = guarded(room, |out, len, offset, place, n| unsafe {
        probe_events(document.as_ptr(), document.len(), out, len, offset, place, n)
    })?;
    let Answer { number, offset, place, n, output } = answer;
    Ok(Reading { number, offset, place, events: output[..n.min(room)].to_vec() })
}

/// Lends the inner part of a larger buffer, and sees that the rest stays as it was.
fn guarded(
    room: usize,
    call: impl FnOnce(*mut u8, usize, *mut usize, *mut usize, *mut usize) -> u32,
) -> Result<Answer, OutOfBounds> {
    let mut buffer = vec![GUARD_BYTE; GUARD];
    buffer.extend(junk(room));
    buffer.extend([GUARD_BYTE; GUARD]);
    let (mut offset, mut place, mut n) = (usize::MAX, usize::MAX - 1, usize::MAX - 2);
    let output = &mut buffer[GUARD..GUARD + room];
    let number = call(output.as_mut_ptr(), output.len(), &mut offset, &mut place, &mut n);
    let outside = buffer[..GUARD].iter().chain(&buffer[GUARD + room..]);
    if outside.copied().any(|b| b != GUARD_BYTE) {
        return Err(OutOfBounds);
    }
    let output = buffer[GUARD..GUARD + room].to_vec();
    Ok(Answer { number, offset, place, n, output })
}

// ---- schemas

const GUARD_WORD: u32 = 0xa5a5_5a5a;

/// What the work buffers hold before a call: other numbers on each round.
fn work_space(call: &Call) -> (Vec<u32>, Vec<u8>) {
    let seed = call.document.len() as u32 % 7;
    let words = (0..call.records as u32).map(|i| match seed {
        0 => 0,
        1 => u32::MAX,
        _ => i.wrapping_mul(0x9e37_79b9).rotate_left(seed) >> (4 * (seed - 2)),
    });
    let mut records = vec![GUARD_WORD; GUARD];
    records.extend(words);
    records.extend([GUARD_WORD; GUARD]);
    let mut text = vec![GUARD_BYTE; GUARD];
    text.resize(GUARD + call.text, b"<\xff0 a\0v"[seed as usize]);
    text.extend([GUARD_BYTE; GUARD]);
    (records, text)
}

/// A call with work buffers full of junk, and an output of `room` bytes.
fn with_work_space(entry: SchemaEntry, call: &Call, room: usize) -> Result<Answer, OutOfBounds> {
    let (mut records, mut text) = work_space(call);
    let words = &mut records[GUARD..GUARD + call.records];
    let bytes = &mut text[GUARD..GUARD + call.text];
    let document = &call.document;
    // SAFETY: the pointers and lengths are those of live slices, as `guarded` lends them.
    let answer = guarded(room, |out, len, offset, place, n| unsafe {
        entry(
            document.as_ptr(),
            document.len(),
            words.as_mut_ptr(),
            words.len(),
            bytes.as_mut_ptr(),
            bytes.len(),
            out,
            len,
            offset,
            place,
            n,
        )
    })?;
    let mut around = records[..GUARD].iter().chain(&records[GUARD + call.records..]);
    let mut outside = text[..GUARD].iter().chain(&text[GUARD + call.text..]);
    if around.any(|w| *w != GUARD_WORD) || outside.any(|b| *b != GUARD_BYTE) {
        return Err(OutOfBounds);
    }
    Ok(answer)
}

/// The model of a document by the proved library.
pub fn schema(call: &Call) -> Result<Reading, OutOfBounds> {
    // An item has at most 23 bytes beside its texts, and at least 6 in the document.
    let room = 5 * call.document.len() + 64;
    let Answer { number, offset, place, n, output } = with_work_space(probe_schema, call, room)?;
    Ok(Reading { number, offset, place, events: output[..n.min(room)].to_vec() })
}

/// A document's source by the proved library.
pub fn xml_to_proto(call: &Call, room: usize) -> Result<Answer, OutOfBounds> {
    with_work_space(sbe_xml_to_proto, call, room)
}

/// The output's length in measurements, unless another is asked for.
const ROOM: usize = 1 << 26;

/// The converter with buffers that stay, for measurements.
pub struct Converter {
    records: Vec<u32>,
    text: Vec<u8>,
    output: Vec<u8>,
}

impl Converter {
    pub fn new() -> Self {
        Converter { records: vec![0; RECORDS], text: vec![0; TEXT], output: vec![0; ROOM] }
    }

    /// Another output, of `room` bytes.
    pub fn room(&mut self, room: usize) {
        self.output = vec![0; room];
    }

    /// Number and n.
    pub fn call(&mut self, document: &[u8]) -> (u32, usize) {
        let (mut offset, mut place, mut n) = (0, 0, 0);
        // SAFETY: the pointers and lengths are those of live slices.
        let number = unsafe {
            sbe_xml_to_proto(
                document.as_ptr(),
                document.len(),
                self.records.as_mut_ptr(),
                self.records.len(),
                self.text.as_mut_ptr(),
                self.text.len(),
                self.output.as_mut_ptr(),
                self.output.len(),
                &mut offset,
                &mut place,
                &mut n,
            )
        };
        (number, n)
    }

    /// The source, or the number of the refusal.
    pub fn run(&mut self, document: &[u8]) -> Result<Vec<u8>, u32> {
        match self.call(document) {
            (0, n) => Ok(self.output[..n].to_vec()),
            (number, _) => Err(number),
        }
    }

    /// How many bytes of stack a call touches, with this function's own few.
    pub fn stack_used(&mut self, document: &[u8]) -> usize {
        let mut stack = vec![PAINT; STACK / 8];
        let mut job = Job { converter: self, document };
        // SAFETY: `convert_job` gets a stack of its own, whose top is aligned as the ABI asks, and a job that
        // lives. r12 and r13 are kept by every callee, so that the old stack is found again.
        unsafe {
            let top = (stack.as_mut_ptr_range().end as usize) & !15;
            asm!(
                "xchg rsp, r12",
                "call r13",
                "mov rsp, r12",
                inout("r12") top => _,
                in("r13") convert_job as extern "C" fn(&mut Job<'_>),
                in("rdi") &mut job,
                clobber_abi("C"),
            );
        }
        let untouched = stack.iter().take_while(|word| **word == PAINT).count();
        8 * (stack.len() - untouched)
    }
}

// ---- the stack

/// Far more than is allowed.
const STACK: usize = 8 << 20;
const PAINT: u64 = 0x5af0_c3e1_963c_a5d2;

/// A call on another stack.
struct Job<'a> {
    converter: &'a mut Converter,
    document: &'a [u8],
}

extern "C" fn convert_job(job: &mut Job<'_>) {
    black_box(job.converter.call(job.document));
}

//! Converts a small schema and a name by the static library, from Rust.
//!
//!     rustc --edition 2021 -O -L native=target/staticlib -l static=sbe examples/rust/convert.rs
//!
//! include/sbe.h says what each function answers and what it must be handed.

use std::io::{self, Write};
use std::process::ExitCode;

/// One name in, one out: the name, the output, then offset, place and n.
macro_rules! conversions {
    ($($function:ident)*) => {
        #[allow(dead_code)] // the whole library is declared, and two functions are called
        extern "C" {
            $(fn $function(
                name: *const u8,
                name_len: usize,
                output: *mut u8,
                output_len: usize,
                offset: *mut usize,
                place: *mut usize,
                n: *mut usize,
            ) -> u32;)*
        }
    };
}

conversions! {
    sbe_camel_to_snake
    sbe_snake_to_camel
    sbe_camel_to_screaming_snake
    sbe_screaming_snake_to_pascal
    sbe_singular_pascal
}

#[allow(dead_code)]
extern "C" {
    fn sbe_strip_enum_prefix(
        value: *const u8,
        value_len: usize,
        enum_name: *const u8,
        enum_name_len: usize,
        output: *mut u8,
        output_len: usize,
        offset: *mut usize,
        place: *mut usize,
        n: *mut usize,
    ) -> u32;
    fn sbe_xml_to_proto(
        document: *const u8,
        document_len: usize,
        records: *mut u32,
        records_len: usize,
        text: *mut u8,
        text_len: usize,
        output: *mut u8,
        output_len: usize,
        offset: *mut usize,
        place: *mut usize,
        n: *mut usize,
    ) -> u32;
}

/// A refusal: number, offset and place.
struct Refused(u32, usize, usize);

fn xml_to_proto(document: &[u8]) -> Result<Vec<u8>, Refused> {
    let (mut records, mut text, mut output) = (vec![0u32; 16_384], vec![0u8; 65_536], vec![0u8; 65_536]);
    let (mut offset, mut place, mut n) = (0, 0, 0);
    // SAFETY: each pointer is handed over with the length of its live slice, and none overlaps another.
    let number = unsafe {
        sbe_xml_to_proto(
            document.as_ptr(),
            document.len(),
            records.as_mut_ptr(),
            records.len(),
            text.as_mut_ptr(),
            text.len(),
            output.as_mut_ptr(),
            output.len(),
            &mut offset,
            &mut place,
            &mut n,
        )
    };
    if number != 0 {
        return Err(Refused(number, offset, place));
    }
    output.truncate(n);
    Ok(output)
}

fn camel_to_snake(name: &[u8]) -> Result<Vec<u8>, Refused> {
    // No converted name is longer than twice its name.
    let mut output = vec![0u8; 2 * name.len()];
    let (mut offset, mut place, mut n) = (0, 0, 0);
    // SAFETY: as above.
    let number = unsafe {
        sbe_camel_to_snake(
            name.as_ptr(),
            name.len(),
            output.as_mut_ptr(),
            output.len(),
            &mut offset,
            &mut place,
            &mut n,
        )
    };
    if number != 0 {
        return Err(Refused(number, offset, place));
    }
    output.truncate(n);
    Ok(output)
}

fn run(out: &mut impl Write) -> io::Result<ExitCode> {
    let document = br#"<messageSchema id="7"><message name="Hit" id="3"/></messageSchema>"#;
    let both = xml_to_proto(document).and_then(|source| Ok((source, camel_to_snake(b"MDEntryPx")?)));
    match both {
        Ok((source, name)) => {
            out.write_all(&source)?;
            writeln!(out, "// MDEntryPx: {}", name.escape_ascii())?;
            Ok(ExitCode::SUCCESS)
        }
        Err(Refused(number, offset, place)) => {
            writeln!(out, "refused\t{number}\t{offset}\t{place}")?;
            Ok(ExitCode::FAILURE)
        }
    }
}

fn main() -> io::Result<ExitCode> {
    run(&mut io::stdout())
}

//! Suite `convert`: a document's source by the proved library against the reference's.

pub mod record;

use crate::library::{self, junk, Answer, OutOfBounds};
use crate::schema::due;
use crate::schema::limits::Call;
use crate::schema::{calls, show, smaller};
use crate::suite::Suite;

const RANDOM: usize = 120_000;
const STEPS: usize = 4;

/// How long the output is.
#[derive(Clone, Copy, Debug)]
pub enum Room {
    /// One byte less than the source; none where there is no source.
    Short,
    Exact,
    Roomy,
    None,
}

const ROOMS: [Room; 4] = [Room::Short, Room::Exact, Room::Roomy, Room::None];

impl Room {
    fn bytes(self, source: &Result<String, due::Refused>) -> usize {
        let length = source.as_ref().map_or(64, String::len);
        match self {
            Room::Short => length - 1,
            Room::Exact => length,
            Room::Roomy => length + 41,
            Room::None => 0,
        }
    }
}

pub struct Conversions;

fn source(call: &Call) -> Result<String, due::Refused> {
    due::source(&call.document, call.records, call.text)
}

/// What has to come of a call with this output. A refusal leaves the output as it was.
fn answer(source: Result<String, due::Refused>, mut output: Vec<u8>) -> Answer {
    let short = due::Refused { number: 3, offset: 0, place: 0 };
    let fitting = source.and_then(|s| if output.len() < s.len() { Err(short) } else { Ok(s) });
    match fitting {
        Err(r) => Answer { number: r.number, offset: r.offset, place: r.place, n: 0, output },
        Ok(source) => {
            output[..source.len()].copy_from_slice(source.as_bytes());
            Answer { number: 0, offset: 0, place: 0, n: source.len(), output }
        }
    }
}

impl Suite for Conversions {
    type Input = (Call, Room);
    type Outcome = Result<Answer, OutOfBounds>;
    const NAME: &'static str = "convert";

    fn inputs(&self, each: &mut dyn FnMut(Self::Input)) {
        let mut k = 0;
        calls(0x636f_6e76, RANDOM, STEPS, &mut |call| {
            // Every kind of room for some documents, one for the others.
            k += 1;
            if k % 8 == 0 {
                ROOMS.iter().for_each(|room| each((call.clone(), *room)));
            } else {
                each((call, ROOMS[k % 3]));
            }
        });
    }

    fn reference(&self, (call, room): &Self::Input) -> Self::Outcome {
        let source = source(call);
        let output = junk(room.bytes(&source));
        Ok(answer(source, output))
    }

    fn library(&self, (call, room): &Self::Input) -> Self::Outcome {
        library::xml_to_proto(call, room.bytes(&source(call)))
    }

    fn smaller<'a>(&'a self, (call, room): &'a Self::Input) -> Box<dyn Iterator<Item = Self::Input> + 'a> {
        Box::new(smaller(call).map(|call| (call, *room)))
    }

    fn size(&self, (call, _): &Self::Input) -> usize {
        call.document.len()
    }

    fn show(&self, (call, room): &Self::Input) -> String {
        format!("{} output {room:?}", show(call))
    }
}

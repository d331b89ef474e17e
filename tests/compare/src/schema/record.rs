//! Records models of the reference for crates/test_schema. The form of a line is described in its
//! src/main.rt.

use std::collections::BTreeSet;
use std::path::Path;

use super::documents::{damaged, random};
use super::limits::{structures, Call};
use super::model;
use crate::prng::Prng;
use crate::record::{self, hex};

const ANSWERS: usize = 340;
const LONGEST: usize = 130;
/// Shorter models are kept now and then.
const RICH: usize = 24;

/// What the rules tell apart.
const DOCUMENTS: &[&str] = &[
    "",
    "</>",
    "<a><b></a>",
    "<a>",
    "<",
    "<messageSchema package='a.b' id='+7' version='007'/>",
    "<messageSchema id='1'/><messageSchema version='4294967295'/>",
    "<messageSchema id='4294967296'/>",
    "<type name='t' primitiveType='char' length='' characterEncoding='x'/>",
    "<type length='0'/><type/>",
    "<composite name='c'><type name='a&lt;'/><ref name='r' type='e'/></composite>",
    "<composite><composite/><type length='x'/></composite>",
    "<composite><x><type/></x></composite><ref/>",
    "<enum name='e' encodingType='uint8'><validValue name='v'>\n 1&amp;lt; <a/>2</validValue></enum>",
    "<enum/><validValue>1</validValue>",
    "<enum><validValue>1<validValue>2</validValue>3</validValue></enum>",
    "<enum><validValue><enum></enum>1</validValue></enum>",
    "<message name='m' id='3'><group name='g' id='5'><field name='h' id='6'/></group><field/></message>",
    "<message><group><group/><field/></group></message>",
    "<message><group><message><field/>",
    "<message><group></group></message><field id='x'/>",
    "<group id='-0'/>",
    "<field/><group/><message id=' 7'/>",
    "\u{80}",
    "<type xmlns='1' x:name='2' name='3'/>",
];

fn answer(document: &[u8]) -> String {
    let r = model(&Call::new(document.to_vec()));
    format!("{} {} {} {} {}\n", r.number, r.offset, r.place, r.events.len(), hex(&r.events))
}

/// Writes `stdin` and `stdout` into a folder.
pub fn write(folder: &Path) -> bool {
    let mut documents: Vec<Vec<u8>> = DOCUMENTS.iter().map(|d| d.as_bytes().to_vec()).collect();
    let mut known: BTreeSet<Vec<u8>> = documents.iter().cloned().collect();
    let mut short = Vec::new();
    structures(5, &mut |document| short.push(document));
    let mut rng = Prng::new(0x7265_6332);
    while documents.len() < ANSWERS {
        let structure = short[rng.below(short.len())].clone();
        for document in [random(&mut rng), damaged(&mut rng), structure] {
            if document.len() > LONGEST {
                continue;
            }
            let reading = model(&Call::new(document.clone()));
            let kept = reading.number != 0 || reading.events.len() > RICH || rng.once_in(8);
            if kept && known.insert(document.clone()) {
                documents.push(document);
            }
        }
    }
    let questions = documents.iter().map(|d| record::question(d)).collect();
    record::write(folder, questions, documents.iter().map(|d| answer(d)).collect())
}

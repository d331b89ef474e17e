//! Records events of the reference for crates/test_markup. The form of a line is described in its
//! src/main.rt.

use std::collections::BTreeSet;
use std::path::Path;

use super::documents::{damaged, random};
use super::events;
use crate::prng::Prng;
use crate::record::{self, hex};

const ANSWERS: usize = 800;
const LONGEST: usize = 48;

/// The worked examples come first, then what the rules tell apart.
const DOCUMENTS: &[&str] = &[
    "<",
    "<a b>",
    "<a/ >",
    "</>",
    "<!-->",
    "<a><b></a>",
    "",
    "x",
    "<a/>",
    "<a></a>",
    "</a:b:c\n>",
    "</a b>",
    "</ a>",
    "< a>",
    "<>",
    "</",
    "<a",
    "<a ",
    "<a/",
    "<a b",
    "<a b=",
    "<a b= c>",
    "<a b='",
    "<a b='\">",
    "<a =''>",
    "<a b='1'c=\"2\"/>",
    "<a b='1' b='2' p:b='3' b=''/>",
    "<a xmlns='1' xmlns:b='2' p:xmlns='3' xmlnsb='4'/>",
    "<a:b:c d:e:f='1' :='2' g:='3'/>",
    "<!-- <a> -- > --->",
    "<!---->x<!--->-->",
    "<?>?>",
    "<??>",
    "<?",
    "<!>",
    "<!",
    "<![CDATA[<a>]]>",
    "&lt;&gt;&quot;&apos;&amp;",
    "&amp;lt;&&amp;amp;&LT;&lt&#65;&amp",
    "<a b='&lt;&amp;lt;' c=\"'&apos;\">\t&quot;\n</a>",
    "a\u{b}b<a\u{c}b='1'/>",
    "\u{80}",
    "<a>\u{e9}",
    "<\u{e9}",
    "<a b='\u{ff}",
];

fn answer(document: &[u8]) -> String {
    let r = events::read(document);
    format!("{} {} {} {} {}\n", r.number, r.offset, r.place, r.events.len(), hex(&r.events))
}

/// Writes `stdin` and `stdout` into a folder.
pub fn write(folder: &Path) -> bool {
    let mut documents: Vec<Vec<u8>> = DOCUMENTS.iter().map(|d| d.as_bytes().to_vec()).collect();
    let mut known: BTreeSet<Vec<u8>> = documents.iter().cloned().collect();
    let mut rng = Prng::new(0x7265_6331);
    while documents.len() < ANSWERS {
        for document in [random(&mut rng), damaged(&mut rng)] {
            if document.len() <= LONGEST && known.insert(document.clone()) {
                documents.push(document);
            }
        }
    }
    let questions = documents.iter().map(|d| record::question(d)).collect();
    record::write(folder, questions, documents.iter().map(|d| answer(d)).collect())
}

//! Records sources of the reference for crates/test_source. The form of a line is described in its
//! src/main.rt.

use std::collections::BTreeSet;
use std::path::Path;

use super::{answer, source};
use crate::library::{junk, Answer};
use crate::prng::Prng;
use crate::record::{self, hex};
use crate::schema::documents::{bare, damaged};
use crate::schema::limits::Call;

const ANSWERS: usize = 220;
/// Of a random document.
const LONGEST: usize = 190;
/// What a rich source has at least two of.
const RICH: [&str; 6] = ["enum ", "string ", "bytes ", "// ", "(sbe.encoding)", "repeated "];
/// The output that the program gives, and the longest source that it writes.
const ROOM: usize = 65_536;
const LONGEST_SOURCE: usize = 32_767;

/// The worked examples come first, then what the rules tell apart.
const DOCUMENTS: &[&str] = &[
    "",
    r#"<messageSchema id="7"><message name="Hit" id="3"><group name="legs" id="5"><field name="legId" id="6" type="uint16"/></group></message></messageSchema>"#,
    "</>",
    "<",
    "<a b>",
    "<!-->",
    "<a/ >",
    "<a><b></a>",
    // Arrays: unused, in an unprinted and a printed composite, in a message and its groups.
    "<type name='n' primitiveType='uint16' length='2'/>",
    "<composite name='messageHeader'><type primitiveType='uint16' length='2'/></composite>",
    "<composite name='groupSizeEncoding'><type primitiveType='char' length='2'/><type primitiveType='x' length='2'/></composite>",
    "<composite name='c'><type name='a' primitiveType='uint16' length='2'/></composite>",
    "<composite name='messageHeader'/><composite/><composite name='c'><type/><type length='2'/></composite>",
    "<message name='m'><field type='n'/></message><composite name='c'><type primitiveType='float' length='3'/></composite><type name='n' length='2'/>",
    "<message name='m'/><message name='k'><field name='f' type='n'/></message><type name='n' primitiveType='int64' length='2'/>",
    "<type name='n' primitiveType='double' length='9'/><message><group name='g'><field name='f' type='n'/></group></message>",
    "<type name='n' length='2'/><message name='a'><group><field type='n'/></group></message><message name='b'><field type='n'/></message>",
    "<type name='n' length='2'/><enum name='n'/><message><field name='f' id='1' type='n'/></message>",
    "<type name='n' length='2'/><composite name='n'/><message><field name='f' id='1' type='n'/></message>",
    // Two types of one name: the last counts.
    "<type name='n' primitiveType='int8'/><type name='n' primitiveType='int16'/><message><field name='f' type='n'/></message>",
    "<type name='n' primitiveType='int32' length='2'/><type name='n' primitiveType='int64'/><message><field type='n'/></message>",
    "<type name='n' primitiveType='int32'/><type name='n' primitiveType='int64' length='2'/><message><field type='n'/></message>",
    // Enums before composites before types before built-ins; what isn't found stands as it is.
    "<type name='uint8' primitiveType='int64'/><message name='M'><field name='a' id='1' type='uint8'/></message>",
    "<enum name='uint8'/><composite name='char'/><message><field name='a' type='uint8'/><field name='b' type='char'/></message>",
    "<message name='M' id='1'><field name='a' type='Nope'/><field name='b'/><field type='string'/></message>",
    "<message name='B'><field type='int8'/><field type='int16'/><field type='int32'/><field type='int64'/><field type='float'/><field type='double'/></message>",
    "<message name='B'><field type='uint8'/><field type='uint16'/><field type='uint32'/><field type='uint64'/><field type='char'/><field type='Char'/></message>",
    "<composite name='P'><type name='a' primitiveType='odd'/><type name='b'/><type name='c' primitiveType='uint16' length='1'/></composite>",
    // char, and raw bytes.
    "<composite name='C'><type name='a' primitiveType='char'/><type name='b' primitiveType='char' length='0'/><type name='c' primitiveType='char' length='12'/></composite>",
    "<composite name='C'><type name='a' primitiveType='int8' length='2'/><type name='b' primitiveType='uint8' length='+40'/><type name='c' primitiveType='uint8' length=''/></composite>",
    "<type name='t' primitiveType='char' length='8' characterEncoding='ISO-8859-1'/><message><field name='a' type='t'/><group name='gs'><field name='b' type='t'/></group></message>",
    "<type name='r' primitiveType='uint8' length='4294967295' characterEncoding='x'/><message><field name='rawData' id='1' type='r'/></message>",
    // Encodings that Debug escapes.
    "<composite name='E'><type name='a' primitiveType='char' characterEncoding='\0\t\n\r&quot;\\&apos;'/></composite>",
    "<composite name='E'><type name='a' primitiveType='char' characterEncoding='x\u{1}\u{f}\u{10}\u{1f}\u{7f}~ '/></composite>",
    "<composite name='E'><type primitiveType='char' characterEncoding=\"a'&amp;lt;&lt;\u{8}\u{b}\"/></composite>",
    // Encodings that are compatible, and those that nearly are.
    "<composite><type primitiveType='char' characterEncoding=' UTF-8\t'/><type primitiveType='char' characterEncoding='\u{b}\u{c}u_t.f:8\r'/></composite>",
    "<composite><type primitiveType='char' characterEncoding='utf\t8'/><type primitiveType='char' characterEncoding='utf8x'/></composite>",
    "<composite><type primitiveType='char' characterEncoding='US-ASCII'/><type primitiveType='char' characterEncoding='ASCII'/></composite>",
    "<composite><type primitiveType='char' characterEncoding='ANSI_X3.4-1968'/><type primitiveType='char' characterEncoding='ANSI_X3.4-1986'/></composite>",
    "<composite><type primitiveType='char' characterEncoding='ANSI_X3.4-1987'/><type primitiveType='char' characterEncoding='ISO646-US'/></composite>",
    "<composite><type primitiveType='char' characterEncoding='iso-ir-6'/><type primitiveType='char' characterEncoding='ISO_646.irv:1991'/></composite>",
    "<composite><type primitiveType='char' characterEncoding='us'/><type primitiveType='char' characterEncoding='IBM367'/></composite>",
    "<composite><type primitiveType='char' characterEncoding='cp367'/><type primitiveType='char' characterEncoding='csASCII'/></composite>",
    "<composite><type primitiveType='char' characterEncoding='csUTF8'/><type primitiveType='char' characterEncoding='- _.:'/></composite>",
    "<composite><type primitiveType='char' characterEncoding='usa'/><type primitiveType='char' characterEncoding='UTF-16'/></composite>",
    // Composites: members before refs, numbered from 1; two of one name.
    "<composite name='Dec'><ref name='theSide' type='Side'/><type name='mantissa' primitiveType='int64'/><ref name='e'/><type name='expBase' primitiveType='int8'/></composite>",
    "<composite name='c'><type name='a'/></composite><composite name='c'><type name='b'/></composite><message><field type='c'/></message>",
    "<composite name='messageHeader'><type name='a'/></composite><composite name='messageheader'/><message><field name='h' type='messageHeader'/></message>",
    // Groups: after the fields, nested ones beside them, by their singular name.
    "<message name='m' id='1'><group name='entries' id='2'><field name='a' id='3'/></group><field name='b' id='4' type='float'/></message>",
    "<message><group name='statuses' id='1'><group name='class' id='2'><field name='a'/></group><field name='b'/></group></message>",
    "<message><group name='s'/><group name='ies'/><group name='ss'/><group name='MDEntries'/><group/><group name='noLegs'/><group name='as'/></message>",
    // Snake and screaming names differ; values are trimmed and decoded once.
    "<enum name='MDEntryPx' encodingType='uint8'><validValue name='MDEntryPx'>0</validValue><validValue name='orderID'> 1\n</validValue></enum>",
    "<enum name='side'><validValue name='buyNow'>\u{b}&amp;lt;&lt;\t</validValue><validValue/><validValue name='SELL'>-2</validValue></enum>",
    "<enum name='e'/><enum name='e'><validValue name='a'>1<!-- -->2</validValue></enum><message><field name='f' type='e'/></message>",
    "<message name='N'><field name='MDEntryPx'/><field name='orderID'/><field name='leg2ID'/><field name='A'/><field name='aB_C'/></message>",
    "<message name='&amp;lt;' id='007'><field name='x&quot;Y' id='+7' type='&lt;'/></message>",
    // The header.
    "<messageSchema package='a.b' id='42' version='4294967295'/>",
    "<messageSchema package='a&gt;b'/><x:messageSchema id='9'/>",
    "<?xml version='1.0'?>\n<sbe:messageSchema xmlns:sbe='u' package='p' id='1' version='2'><types/></sbe:messageSchema>",
    // The other refusals.
    "<message name='m'><field id='-0'/></message>",
    "<messageSchema version='4294967296'/>",
    "<message><group><message><field/>",
    "<messageSchema>",
    "<enum name='\u{80}'/>",
    "<message name='m'></message",
    "<message name='m>",
    "<message name=m>",
    "<message name",
    "<? >",
    "<!x",
];

/// Documents with a limit: elements, and an output that the source doesn't fit in.
fn limited() -> Vec<String> {
    let encoding =
        format!("<type name='t' primitiveType='char' characterEncoding='{}'/>", "\u{1}".repeat(160));
    let fields = "<field type='t'/>".repeat(80);
    vec![
        "<a>".repeat(64) + &"</a>".repeat(64),
        "<a>".repeat(65),
        format!("{encoding}<message>{fields}</message>"),
    ]
}

fn recorded(document: &[u8]) -> Answer {
    answer(source(&Call::new(document.to_vec())), junk(ROOM))
}

fn line(document: &[u8]) -> String {
    let r = recorded(document);
    assert!(r.n <= LONGEST_SOURCE, "{} bytes are more than a program writes", r.n);
    format!("{} {} {} {} {}\n", r.number, r.offset, r.place, r.n, hex(&r.output[..r.n]))
}

/// Rich sources and arrays; what is refused for its markup or structure is other samples' matter.
fn kept(rng: &mut Prng, document: &[u8]) -> bool {
    let r = recorded(document);
    let source = String::from_utf8_lossy(&r.output[..r.n]);
    let rich = RICH.iter().filter(|part| source.contains(*part)).count() > 1;
    rich || r.number >= 40 || rng.once_in(100)
}

/// Writes `stdin` and `stdout` into a folder.
pub fn write(folder: &Path) -> bool {
    let by_hand = DOCUMENTS.iter().map(|d| d.to_string()).chain(limited());
    let mut documents: Vec<Vec<u8>> = by_hand.map(String::into_bytes).collect();
    let mut known: BTreeSet<Vec<u8>> = documents.iter().cloned().collect();
    let mut rng = Prng::new(0x7265_6333);
    while documents.len() < ANSWERS {
        for document in [bare(&mut rng), bare(&mut rng), damaged(&mut rng)] {
            if document.len() <= LONGEST && kept(&mut rng, &document) && known.insert(document.clone()) {
                documents.push(document);
            }
        }
    }
    let questions = documents.iter().map(|d| record::question(d)).collect();
    record::write(folder, questions, documents.iter().map(|d| line(d)).collect())
}

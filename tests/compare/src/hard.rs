//! Documents that may be slow for either side, within the limits.

use crate::prng::Prng;

/// As many times as there is room for in a document of the longest length.
pub fn most(before: &str, each: impl Fn(usize) -> String, after: &str, count: usize) -> String {
    let mut text = before.to_string();
    for k in 0..count {
        let next = each(k);
        if text.len() + next.len() + after.len() > 32_768 {
            break;
        }
        text += &next;
    }
    text + after
}

/// The hash of a name in the converter's index (crates/index, `hash_of`).
fn hash(name: &str) -> u64 {
    let (name, n) = (name.as_bytes(), name.len());
    let at = |i: usize, k: usize| name[i..i + k].iter().rev().fold(0u64, |w, x| w << 8 | u64::from(*x));
    let mix = |h: u64, w: u64| (h % (1 << 60) * 9) ^ w;
    let word = match n {
        0 => 0,
        1..=3 => at(0, 1) | at(n / 2, 1) << 8 | at(n - 1, 1) << 16 | (n as u64) << 24,
        4..=7 => at(0, 4) | at(n - 4, 4) << 32,
        _ => mix((0..n - 8).step_by(8).fold(n as u64, |h, i| mix(h, at(i, 8))), at(n - 8, 8)),
    };
    (word % (1 << 32) * 1_981_491_285 + (word >> 32) * 1_113_222_403) >> 30 & 1023
}

/// Names with a common prefix that have one hash.
fn colliding(prefix: &str, count: usize) -> Vec<String> {
    let letters: Vec<char> = ('a'..='z').chain('A'..='Z').chain('0'..='9').collect();
    let mut names = Vec::new();
    for a in &letters {
        for b in &letters {
            names.extend(letters.iter().map(|c| format!("{prefix}{a}{b}{c}")).filter(|name| hash(name) == 0));
        }
    }
    names.truncate(count);
    names
}

/// A type of each name, and as many fields as there is room for, each of the type that is told.
fn naming<'a>(names: &'a [String], field: impl Fn(usize) -> &'a String) -> String {
    let types: String = names.iter().map(|name| format!("<type name='{name}'/>")).collect();
    let room = 1_023 - names.len();
    most(&format!("{types}<message>"), |k| format!("<field type='{}'/>", field(k)), "</message>", room)
}

/// What may be slow for either side, within the limits.
fn hard() -> Vec<(&'static str, String)> {
    vec![
        ("nothing", String::new()),
        ("text alone", "x".repeat(32_768)),
        ("'&' alone, in a value", format!("<enum><validValue>{}</validValue></enum>", "&".repeat(32_000))),
        ("entities, in a value", format!("<enum><validValue>{}</validValue></enum>", "&amp;".repeat(6_400))),
        ("one long name", format!("<message name='{}'/>", "aB".repeat(16_000))),
        (
            "one long encoding",
            format!(
                "<composite><type primitiveType='char' characterEncoding='{}'/></composite>",
                "-".repeat(32_000)
            ),
        ),
        (
            "one long encoding that ends in a letter",
            format!(
                "<composite><type primitiveType='char' characterEncoding='{}x'/></composite>",
                "-".repeat(32_000)
            ),
        ),
        ("one long tag of attributes", most("<field ", |k| format!("a{k}='' "), "/>", 9_999)),
        ("one long tag of one attribute", most("<field ", |_| "a=''".into(), "/>", 9_999)),
        ("empty closes", "</>".repeat(10_922)),
        ("closed at once", "<a/>".repeat(8_192)),
        ("opened and closed", "<a></a>".repeat(4_681)),
        ("opened with an attribute and closed", "<a b=''></a>".repeat(2_730)),
        ("types without any", "<types></types>".repeat(2_184)),
        ("empty comments", "<!---->".repeat(4_681)),
        ("empty instructions", "<??>".repeat(8_192)),
        ("empty declarations", "<!>".repeat(10_922)),
        ("one long comment", format!("<!--{}-->", "-".repeat(32_000))),
        ("one long instruction", format!("<?{}?>", "?".repeat(32_000))),
        ("refused at its first tag", "</a>".repeat(8_192)),
        ("messages", most("", |_| "<message/>".into(), "", 1_024)),
        ("fields of unknown type", most("<message>", |_| "<field type='zzzz'/>".into(), "</message>", 1_023)),
        ("fields after types", {
            let types = most("", |k| format!("<type name='t{k:03}'/>"), "", 512);
            most(&format!("{types}<message>"), |_| "<field type='t000'/>".into(), "</message>", 511)
        }),
        ("fields after types, one name begins as the other", {
            let types = most("", |_| "<type name='aaaaaaaaaaaaaaab'/>".to_string(), "", 500);
            most(
                &format!("{types}<message>"),
                |_| "<field type='aaaaaaaaaaaaaaaa'/>".into(),
                "</message>",
                500,
            )
        }),
        ("groups, a field each", most("<message>", |_| "<group><field/></group>".into(), "</message>", 511)),
        ("messages, a field each", most("", |_| "<message><field/></message>".into(), "", 512)),
        ("composites, a member each", most("", |_| "<composite><type/></composite>".into(), "", 512)),
        ("enums, a value each", most("", |_| "<enum><validValue/></enum>".into(), "", 512)),
        ("values", most("<enum>", |_| "<validValue/>".into(), "</enum>", 1_023)),
        ("empty groups in one message", most("<message>", |_| "<group/>".into(), "</message>", 1_023)),
        ("fields that name the first of 400 types with a common prefix", {
            let types = most("", |k| format!("<type name='commonPrefixOfTwenty{k:03}'/>"), "", 400);
            most(
                &format!("{types}<message>"),
                |_| "<field type='commonPrefixOfTwenty000'/>".into(),
                "</message>",
                400,
            )
        }),
        ("one tag of 4,000 attributes", most("<field ", |_| "ab='' ".into(), "/>", 4_000)),
        ("values of one long enum name", {
            let name = "aB".repeat(6_000);
            most(&format!("<enum name='{name}'>"), |_| "<validValue/>".into(), "</enum>", 1_020)
        }),
        ("fields of two hundred long type names", {
            let name = "a".repeat(60);
            let types = most("", |k| format!("<type name='{name}{k:03}'/>"), "", 200);
            let field = format!("<field type='{name}000'/>");
            most(&format!("{types}<message>"), |_| field.clone(), "</message>", 800)
        }),
        ("groups of long names", {
            most(
                "<message>",
                |k| format!("<group name='aBcDeFgHiJkLmNoPqRsTuVwXyZ{k}'/>"),
                "</message>",
                1_023,
            )
        }),
        ("members of a strange encoding", {
            let each = "<type primitiveType='char' characterEncoding='\u{1}'/>".to_string();
            most("<composite>", |_| each.clone(), "</composite>", 1_023)
        }),
        ("messages, a group with a field each", {
            most("", |_| "<message><group><field/></group></message>".into(), "", 341)
        }),
        ("fields of one type with a long encoding", {
            let encoding = "-".repeat(10_000);
            let types =
                format!("<type name='t' primitiveType='char' characterEncoding='{encoding}'/><message>");
            most(&types, |_| "<field type='t'/>".into(), "</message>", 1_020)
        }),
        ("fields of one type with a long strange encoding", {
            let encoding = "x".repeat(10_000);
            let types =
                format!("<type name='t' primitiveType='char' characterEncoding='{encoding}'/><message>");
            most(&types, |_| "<field type='t'/>".into(), "</message>", 1_020)
        }),
        ("fields of type names that collide, the first", {
            let names = colliding(&"p".repeat(30), 216);
            naming(&names, |_| &names[0])
        }),
        ("fields of type names that collide, each another", {
            let names = colliding(&"p".repeat(30), 216);
            naming(&names, |k| &names[k * 7 % names.len()])
        }),
        ("fields of type names that collide, as many as one chain is walked for", {
            let names = colliding(&"p".repeat(30), 8);
            naming(&names, |_| &names[0])
        }),
        ("fields of one type name, declared 500 times", {
            let names = vec!["abc".to_string(); 500];
            naming(&names, |_| &names[0])
        }),
        ("fields of type names in falling order, a few collide", {
            let mut names: Vec<String> = (0..500).map(|k| format!("{:03}", 999 - k)).collect();
            names.extend(colliding("", 20));
            naming(&names, |k| &names[519 - k * 7 % 520])
        }),
        ("deep", "<a>".repeat(64) + &"</a>".repeat(64)),
    ]
}

/// One thing over and over, in all of the longest document.
fn full(each: &str) -> String {
    each.repeat(32_768 / each.len())
}

/// One attribute over and over in one tag.
fn tag(begin: &str, each: &str) -> String {
    most(begin, |_| each.to_string(), "/>", 9_999)
}

/// Elements with names of so many bytes, opened and closed.
fn paired(length: usize) -> String {
    let name = "a".repeat(length);
    full(&format!("<{name}></{name}>"))
}

/// Bytes of two kinds in no order, without the text that ends the markup around them.
fn mixed(one: char, other: char, end: &str) -> String {
    let mut rng = Prng::new(0x6d69_7865);
    let mut text = String::new();
    while text.len() < 32_000 {
        text.push(if rng.below(2) == 0 { one } else { other });
        if text.ends_with(end) {
            text.pop();
        }
    }
    text
}

/// Markup of which the reference makes little: it is passed over, dropped, or refused late.
fn little() -> Vec<(&'static str, String)> {
    vec![
        ("attributes xmlns", tag("<field ", "xmlns='' ")),
        ("attributes xmlns, nothing between", tag("<field ", "xmlns=''")),
        ("attributes xmlns, a line each", tag("<field\n", "xmlns=''\n")),
        ("attributes xmlns:a", tag("<field ", "xmlns:a='' ")),
        ("attributes of an unknown name, a line each", tag("<a\n", "b=''\n")),
        ("attributes of an unknown name, two spaces", tag("<a  ", "b=''  ")),
        ("attributes of a long unknown name", tag("<field ", "abcdefghijklmnop='' ")),
        ("attributes with a prefix", tag("<field ", "a:b='' ")),
        ("attributes of a known name", tag("<field ", "name=\"\" ")),
        ("attributes of a known name, apostrophes", tag("<field ", "name='' ")),
        ("attributes with a long value", tag("<field ", "ab='abcdefghijklmnopqrstuvwxyz' ")),
        ("one long value", format!("<a b='{}'/>", "x".repeat(32_000))),
        ("comments of one byte", full("<!--a-->")),
        ("comments of a line", full("<!-- a comment of some length -->")),
        ("one long comment of letters", format!("<!--{}-->", "x".repeat(32_000))),
        ("one long comment of '>'", format!("<!--{}-->", ">".repeat(32_000))),
        ("one long comment of '-' and '>'", format!("<!--{}-->", mixed('-', '>', "-->"))),
        ("one long instruction of letters", format!("<?{}?>", "x".repeat(32_000))),
        ("one long instruction of '?' and '>'", format!("<?{}?>", mixed('?', '>', "?>"))),
        ("declarations of eight bytes", full("<!abcdefgh>")),
        ("one long declaration", format!("<!{}>", "x".repeat(32_000))),
        ("declarations and text", full("<!>x")),
        ("text and closes without a name", full("a</>")),
        ("lines and closes without a name", full("\n</>")),
        ("a name of nothing but a prefix", full("<a:></>")),
        ("opened and closed, a line each", full("<a\n></a\n>")),
        ("opened and closed, a longer name", full("<abcdefgh></abcdefgh>")),
        ("opened and closed, with a prefix", full("<b:a></b:a>")),
        ("closed at once, a space before", full("<a />")),
        ("closed at once, a longer name", full("<abcdefgh/>")),
        ("closed at once, with a prefix", full("<b:a/>")),
        ("closed at once, with an attribute", full("<a b=''/>")),
        ("types closed at once", full("<types/>")),
        ("refs that are dropped", full("<ref/>")),
        ("fields that are dropped", full("<field/>")),
        ("fields that are dropped, opened and closed", full("<field></field>")),
        ("values that are dropped", full("<validValue/>")),
        ("groups that are dropped", full("<group/>")),
        ("groups that are dropped, with an id", full("<group id='1'/>")),
        ("schemas", full("<messageSchema/>")),
        ("schemas with numbers", full("<messageSchema id='1' version='2'/>")),
        (
            "comments in a value",
            most("<enum><validValue>", |_| "a<!---->".into(), "</validValue></enum>", 9_999),
        ),
        (
            "elements in a value",
            most("<enum><validValue>", |_| "a<a/>".into(), "</validValue></enum>", 9_999),
        ),
        ("deep, again and again", full(&("<a>".repeat(64) + &"</a>".repeat(64)))),
        ("spaces in a tag", format!("<a{}/>", " ".repeat(32_000))),
        ("spaces in a close tag", format!("<a></a{}>", " ".repeat(32_000))),
        ("one long number", format!("<message id='{}'/>", "0".repeat(32_000))),
        ("one long name of '&'", format!("<message name='{}'/>", "&".repeat(32_000))),
        ("one long name of entities", format!("<message name='{}'/>", "&amp;".repeat(6_400))),
        ("names of 30 bytes, opened and closed", paired(30)),
        ("names of 100 bytes, opened and closed", paired(100)),
        ("one name of 16,000 bytes, opened and closed", paired(16_000)),
        ("names of 60 bytes, closed at once", full(&format!("<{}/>", "a".repeat(60)))),
        ("one long name of colons", format!("<{}/>", ":".repeat(32_000))),
        ("one long attribute name", format!("<a {}=''/>", "b".repeat(32_000))),
        ("tabs and lines in a tag", format!("<a{}/>", "\t\n".repeat(16_000))),
        ("a name that never ends", full("<a")),
        ("a name of letters that never ends", full("<messageSchema")),
        ("comments that never end", full("<!--")),
        ("an instruction that never ends", format!("<?{}", "x".repeat(32_000))),
        ("a declaration that never ends", format!("<!{}", "x".repeat(32_000))),
        ("a close name that never ends", format!("</{}", "a".repeat(32_000))),
        ("an attribute name that never ends", format!("<a {}", "a".repeat(32_000))),
        ("a long name in a tag without an end", format!("<{} =", "a".repeat(32_000))),
        ("a long name and a colon in a tag without an end", format!("<{}:b =", "a".repeat(32_000))),
        ("a long name of letters and digits in a tag without an end", format!("<{} =", "aaa1".repeat(8_000))),
        ("names without an end", full("<field")),
        ("declarations of elements", full("<!<a/>")),
        (
            "fields of built-in types",
            most(
                "<message>",
                |i| format!("<field name=\"f{i}\" type=\"uint32\" id=\"{i}\"/>"),
                "</message>",
                1_000,
            ),
        ),
        ("refused at its first number", full("<field id='+'/>")),
        ("refused at its last byte", "<a></a>".repeat(4_600) + "<"),
    ]
}

/// Short markup over and over, of each kind that is passed over or dropped: what ends it is looked for by single bytes up to
/// some length and by words beyond.
fn short() -> Vec<(String, String)> {
    let mut documents = Vec::new();
    for n in [1, 2, 3, 4, 5, 6, 8, 10, 12, 14, 15, 16, 17, 20] {
        let text = "x".repeat(n);
        let mut add =
            |kind: &str, document: String| documents.push((format!("{kind} of {n} bytes"), document));
        add("comments", full(&format!("<!--{text}-->")));
        add("instructions", full(&format!("<?{text}?>")));
        add("declarations", full(&format!("<!{text}>")));
        add("xmlns values", tag("<a ", &format!("xmlns='{text}' ")));
        add("xmlns values without an end", most("<a", |_| format!(" xmlns='{text}'"), "", 9_999));
    }
    documents
}

/// Runs of bytes that are told one by one up to some length and by many at once beyond: names, spaces, and what declares a namespace.
fn runs() -> Vec<(String, String)> {
    let mut documents = Vec::new();
    for n in [2, 4, 8, 12, 15, 16, 17, 20, 24, 31, 32, 33, 40, 48] {
        let (text, digits, spaces) = ("x".repeat(n), "7".repeat(n), " ".repeat(n));
        let mut add =
            |kind: &str, document: String| documents.push((format!("{kind} of {n} bytes"), document));
        add("attribute names", tag("<a ", &format!("{text}='' ")));
        add("attribute names without an end", most("<a", |_| format!(" {digits}=''"), "", 9_999));
        add("prefixes of attributes", tag("<a ", &format!("{text}:b='' ")));
        add("prefixes that are declared", tag("<a ", &format!("xmlns:{text}='' ")));
        add(
            "prefixes that are declared without an end",
            most("<a", |_| format!(" xmlns:{text}='a'"), "", 9_999),
        );
        add("names closed at once", full(&format!("<{text}/>")));
        add("names opened and closed", full(&format!("<{text}></{text}>")));
        add("prefixes of names", full(&format!("<{text}:a/>")));
        add("spaces in tags", full(&format!("<a{spaces}/>")));
        add("spaces between attributes", tag("<a", &format!("{spaces}b=''")));
        add("spaces between xmlns", most("<a", |_| format!("{spaces}xmlns=''"), "", 9_999));
        add("spaces around '='", tag("<a ", &format!("xmlns{spaces}={spaces}'' ")));
        add("texts between tags", full(&format!("{text}<a/>")));
    }
    documents.extend(
        [
            ("attributes xmlns and others in turns", tag("<a ", "xmlns='' b='' ")),
            ("attributes xmlns and others that begin alike", tag("<a ", "xmlns='' xmlnsa='' ")),
            ("attributes that begin as xmlns does", tag("<a ", "xmlnsa='' ")),
            ("attributes of one letter x", tag("<a ", "x='' ")),
            ("tags of one xmlns", full("<a xmlns='a'/>")),
            ("tags of two xmlns", full("<a xmlns='a' xmlns:b='b'/>")),
            ("tags of two xmlns without an end", most("", |_| "<a xmlns='a' xmlns:b='b'".into(), "", 9_999)),
            ("fields of one xmlns", full("<field xmlns='a' id=\"1\"/>")),
        ]
        .map(|(name, document)| (name.to_owned(), document)),
    );
    documents
}

/// Markup that yields no event, where it stands in a document: inside one element, in rows, by turns with tags and with text, and in a
/// value.
fn silent() -> Vec<(String, String)> {
    let mut documents = Vec::new();
    for n in [0, 1, 8, 16, 24, 40] {
        let text = "x".repeat(n);
        for (kind, one) in [
            ("comments", format!("<!--{text}-->")),
            ("instructions", format!("<?{text}?>")),
            ("declarations", format!("<!{text}>")),
        ] {
            let mut add = |place: &str, document: String| {
                documents.push((format!("{kind} of {n} bytes {place}"), document));
            };
            add("inside an element", most("<a>", |_| one.clone(), "</a>", 32_768));
            add("between tags", full(&format!("<a/>{one}")));
            add("between a tag and its close", full(&format!("<a>{one}</a>")));
            add("two between tags", full(&format!("<a/>{one}{one}")));
            add("eight between tags", full(&format!("<a/>{}", one.repeat(8))));
            add("a line each", full(&format!("{one}\n")));
            add("a line each, between tags", full(&format!("<a/>\n{one}\n")));
            add("in a value", most("<enum><validValue>", |_| format!("a{one}"), "</validValue></enum>", 32_768));
        }
    }
    documents
}

/// Every document that may be slow for either side.
pub fn all() -> Vec<(String, String)> {
    let named = |(name, document): (&str, String)| (name.to_owned(), document);
    hard().into_iter().chain(little()).map(named).chain(short()).chain(runs()).chain(silent()).collect()
}

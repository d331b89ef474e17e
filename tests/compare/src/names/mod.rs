//! Suite `names`: the six name conversions of the library against the reference's.

mod inputs;
pub mod record;

use reference::xmlschema;

use crate::library::{self, Answer, OutOfBounds};
use crate::suite::{caught, shown, without_parts, Suite};

/// The longest name that is taken (refusal 1).
pub const MAX_NAME: usize = 32_768;

#[derive(Clone, Copy, Debug, PartialEq)]
pub enum Conversion {
    Snake,
    Camel,
    Screaming,
    Pascal,
    Singular,
    Strip,
}

impl Conversion {
    pub const ALL: [Conversion; 6] = [
        Conversion::Snake,
        Conversion::Camel,
        Conversion::Screaming,
        Conversion::Pascal,
        Conversion::Singular,
        Conversion::Strip,
    ];

    fn of(self, value: &str, enum_name: &str) -> String {
        match self {
            Conversion::Snake => xmlschema::camel_to_snake(value),
            Conversion::Camel => xmlschema::snake_to_camel(value),
            Conversion::Screaming => xmlschema::camel_to_screaming_snake(value),
            Conversion::Pascal => xmlschema::screaming_snake_to_pascal(value),
            Conversion::Singular => xmlschema::singular_pascal(value),
            Conversion::Strip => xmlschema::strip_enum_prefix(value, enum_name),
        }
    }
}

/// The output's length, by what the text takes.
#[derive(Clone, Copy, Debug, PartialEq)]
pub enum Room {
    OneShort,
    Exact,
    Roomy,
}

impl Room {
    pub const ALL: [Room; 3] = [Room::OneShort, Room::Exact, Room::Roomy];
}

#[derive(Clone, Debug)]
pub struct Input {
    pub conversion: Conversion,
    pub value: Vec<u8>,
    /// Empty but for `Strip`.
    pub enum_name: Vec<u8>,
    pub room: Room,
}

/// A refusal by the names alone: its number, and its offset and place.
struct Refusal(u32, usize);

impl Input {
    /// The text by the reference, or the refusal that comes before it: 1, then 10, with two names
    /// the value name first within each.
    fn text(&self) -> Result<Vec<u8>, Refusal> {
        let names = [&self.value, &self.enum_name];
        if names.iter().any(|name| name.len() > MAX_NAME) {
            return Err(Refusal(1, 0));
        }
        for name in names {
            if let Some(at) = name.iter().position(|b| *b >= 128) {
                return Err(Refusal(10, at));
            }
        }
        let ascii = |name| std::str::from_utf8(name).expect("the names are ASCII");
        Ok(self.conversion.of(ascii(&self.value), ascii(&self.enum_name)).into_bytes())
    }

    /// The output's length. Where the names are refused any will do.
    pub fn room_bytes(&self) -> usize {
        let n = self.text().map_or(self.value.len().min(40), |text| text.len());
        match self.room {
            Room::OneShort => n.saturating_sub(1),
            Room::Exact => n,
            Room::Roomy => n + 1 + n % 9,
        }
    }

    /// The answer that is due on an output that holds `before`.
    pub fn due(&self, before: &[u8]) -> Answer {
        let refused = |number, at| Answer { number, offset: at, place: at, n: 0, output: before.to_vec() };
        match self.text() {
            Err(Refusal(number, at)) => refused(number, at),
            Ok(text) if before.len() < text.len() => refused(3, 0),
            Ok(text) => {
                let output = [&text, &before[text.len()..]].concat();
                Answer { number: 0, offset: 0, place: 0, n: text.len(), output }
            }
        }
    }
}

pub struct Names;

impl Suite for Names {
    type Input = Input;
    /// None where the reference panics, which the library never answers.
    type Outcome = Option<Result<Answer, OutOfBounds>>;
    const NAME: &'static str = "names";

    fn inputs(&self, each: &mut dyn FnMut(Input)) {
        inputs::all(each);
    }

    fn reference(&self, input: &Input) -> Self::Outcome {
        caught(|| Ok(input.due(&library::junk(input.room_bytes()))))
    }

    fn library(&self, input: &Input) -> Self::Outcome {
        let room = caught(|| input.room_bytes()).unwrap_or(0);
        Some(library::convert(input.conversion, &input.value, &input.enum_name, room))
    }

    fn smaller<'a>(&'a self, input: &'a Input) -> Box<dyn Iterator<Item = Input> + 'a> {
        let values = without_parts(&input.value).map(|value| Input { value, ..input.clone() });
        let enums = without_parts(&input.enum_name).map(|enum_name| Input { enum_name, ..input.clone() });
        Box::new(values.chain(enums))
    }

    fn size(&self, input: &Input) -> usize {
        input.value.len() + input.enum_name.len()
    }

    fn show(&self, input: &Input) -> String {
        let Input { conversion, value, enum_name, room } = input;
        format!("{conversion:?} {} {}, {room:?}", shown(value), shown(enum_name))
    }
}

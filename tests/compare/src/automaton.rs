//! The limit of a reader that looks at each byte once: a byte automaton for markup, a table of states and bytes that tells
//! only where it ends.

const TEXT: u8 = 0;
const OPEN: u8 = 1;
const TAG: u8 = 2;
const QUOTED: u8 = 3;
const APOSTROPHES: u8 = 4;
const DECLARATION: u8 = 5;
const INSTRUCTION: u8 = 6;
const STATES: usize = 7;

pub struct Automaton {
    next: [[u8; 256]; STATES],
}

impl Automaton {
    pub fn new() -> Self {
        let mut next = [[0; 256]; STATES];
        for (state, row) in next.iter_mut().enumerate() {
            row.fill(if state == OPEN as usize { TAG } else { state as u8 });
        }
        let steps = [
            (TEXT, b'<', OPEN),
            (OPEN, b'!', DECLARATION),
            (OPEN, b'?', INSTRUCTION),
            (OPEN, b'>', TEXT),
            (TAG, b'"', QUOTED),
            (TAG, b'\'', APOSTROPHES),
            (TAG, b'>', TEXT),
            (QUOTED, b'"', TAG),
            (APOSTROPHES, b'\'', TAG),
            (DECLARATION, b'>', TEXT),
            (INSTRUCTION, b'>', TEXT),
        ];
        for (from, byte, to) in steps {
            next[from as usize][byte as usize] = to;
        }
        Automaton { next }
    }

    /// The state after the last byte.
    pub fn run(&self, document: &[u8]) -> u8 {
        document.iter().fold(TEXT, |state, byte| self.next[state as usize][*byte as usize])
    }
}

#[cfg(test)]
mod tests {
    use super::*;

    #[test]
    fn it_ends_in_text_behind_a_whole_tag() {
        let automaton = Automaton::new();
        assert_eq!(automaton.run(b"<?a?><!b><c d='>' e=\"<\">f</c>"), TEXT);
        assert_eq!(automaton.run(b"<a b='"), APOSTROPHES);
    }
}

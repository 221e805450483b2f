//! Identifies file types by content, using `magic` from the Shared MIME-info Database. The content decides between types that fit a name
//! equally well.

use std::cmp::Reverse;
use std::collections::HashMap;
use std::fs;
use std::ops::Range;
use std::path::Path;

/// The first bytes of the database file `magic`.
const HEAD: &[u8] = b"MIME-Magic\0\n";

/// According to the specification, a file is text if this many bytes at its beginning contain no control characters.
const TEXT: usize = 128;

/// The maximum number of steps from a type to an ancestor. More would mean a cycle.
const STEPS: usize = 16;

/// The ancestor of all text types.
const PLAIN: &str = "text/plain";

/// A line of the database: bytes that the content must have at one of these positions.
#[derive(Debug)]
struct Line {
    /// The line's depth. A line adds a condition to the nearest line before it that has a smaller indent.
    indent: usize,
    places: Range<usize>,
    value: Vec<u8>,
    mask: Option<Vec<u8>>,
}

/// What files of a type contain.
#[derive(Debug)]
struct Section {
    priority: u32,
    lines: Vec<Line>,
}

/// What files of each type contain, and each type's parents.
#[derive(Debug, Default)]
pub struct Magic {
    sections: HashMap<String, Vec<Section>>,
    parents: HashMap<String, Vec<String>>,
}

/// How well a file's content fits a type. Matches are ordered by the priority of the matching section, and then by the number of steps from
/// the type to the ancestor with that section. `Other` means that no section matches.
#[derive(Clone, Copy, Debug, PartialEq, Eq, PartialOrd, Ord)]
enum Fit {
    /// The type is a text type, but the content isn't text.
    No,
    Other,
    Text,
    Section(u32, Reverse<usize>),
}

impl Magic {
    /// Reads the database in this folder. If it can't be read, returns an empty one.
    pub fn read(database: &Path) -> Self {
        let magic = fs::read(database.join("magic")).unwrap_or_default();
        let subclasses = fs::read_to_string(database.join("subclasses")).unwrap_or_default();
        Self::new(&magic, &subclasses)
    }

    fn new(magic: &[u8], subclasses: &str) -> Self {
        let mut parents: HashMap<String, Vec<String>> = HashMap::new();
        for (mime, parent) in subclasses.lines().filter_map(|line| line.split_once(' ')) {
            parents.entry(mime.into()).or_default().push(parent.into());
        }
        Self {
            sections: sections_of(magic),
            parents,
        }
    }

    /// Returns the type that fits the content best, out of several that fit the name equally well. If there is a tie, returns the first.
    pub fn choose<'a>(&self, mimes: &[&'a str], begin: &[u8]) -> Option<&'a str> {
        if begin.is_empty() {
            return mimes.first().copied();
        }
        let is_text = !begin.iter().take(TEXT).any(|byte| is_control(*byte));
        // If several elements are equal, `max_by_key` returns the last.
        let from_last = mimes.iter().rev();
        from_last.copied().max_by_key(|mime| self.fit(mime, begin, is_text))
    }

    fn fit(&self, mime: &str, begin: &[u8], is_text: bool) -> Fit {
        let above = self.with_those_above(mime);
        let with_section = above.iter().filter_map(|(mime, steps)| {
            let priority = self.priority(mime, begin)?;
            Some(Fit::Section(priority, Reverse(*steps)))
        });
        with_section.max().unwrap_or_else(|| {
            let is_of_texts = above
                .iter()
                .any(|(mime, _)| *mime == PLAIN || mime.starts_with("text/"));
            match (is_of_texts, is_text) {
                (true, true) => Fit::Text,
                (true, false) => Fit::No,
                (false, _) => Fit::Other,
            }
        })
    }

    /// Returns the type and its ancestors, each with its number of steps from the type.
    fn with_those_above<'a>(&'a self, mime: &'a str) -> Vec<(&'a str, usize)> {
        let mut all = vec![(mime, 0)];
        let mut next = 0;
        while next < all.len() {
            let (mime, steps) = all[next];
            let parents = self.parents.get(mime).into_iter().flatten();
            if steps < STEPS {
                all.extend(parents.map(|parent| (parent.as_str(), steps + 1)));
            }
            next += 1;
        }
        all
    }

    /// Returns the highest priority among the type's sections that match the content.
    fn priority(&self, mime: &str, begin: &[u8]) -> Option<u32> {
        let sections = self.sections.get(mime)?.iter();
        let had = sections.filter(|section| has_one(&section.lines, 0, begin));
        had.map(|section| section.priority).max()
    }
}

/// Returns whether this is a control character that doesn't occur in text.
fn is_control(byte: u8) -> bool {
    byte < b' ' && !matches!(byte, b'\t' | b'\n' | b'\r' | b'\x08' | b'\x0c' | b'\x1b')
}

/// Returns whether the content matches one of the lines with this indent and, if that line has lines below it, one of those too.
fn has_one(lines: &[Line], indent: usize, begin: &[u8]) -> bool {
    let places = (0..lines.len()).filter(|at| lines[*at].indent == indent);
    places.into_iter().any(|at| {
        let rest = &lines[at + 1..];
        let count = rest.iter().take_while(|line| line.indent > indent).count();
        lines[at].is_in(begin) && (count == 0 || has_one(&rest[..count], indent + 1, begin))
    })
}

impl Line {
    fn is_in(&self, begin: &[u8]) -> bool {
        let fits = |bytes: &[u8]| match &self.mask {
            Some(mask) => {
                (bytes.iter().zip(&self.value).zip(mask)).all(|((byte, value), mask)| byte & mask == value & mask)
            }
            None => bytes == self.value,
        };
        let mut places = self.places.clone();
        places.any(|place| begin.get(place..place + self.value.len()).map_or(false, fits))
    }
}

/// Parses the sections of the file up to the first invalid one.
fn sections_of(file: &[u8]) -> HashMap<String, Vec<Section>> {
    let mut sections: HashMap<String, Vec<Section>> = HashMap::new();
    let mut bytes = Bytes(file.strip_prefix(HEAD).unwrap_or_default());
    while let Some((mime, section)) = bytes.section() {
        sections.entry(mime).or_default().push(section);
    }
    sections
}

/// The unread rest of the file.
struct Bytes<'a>(&'a [u8]);

impl<'a> Bytes<'a> {
    /// Parses a section: `[50:image/png]`, a newline, and lines.
    fn section(&mut self) -> Option<(String, Section)> {
        self.skip(b"[")?;
        let end = self.0.iter().position(|byte| *byte == b']')?;
        let head = std::str::from_utf8(self.take(end)?).ok()?;
        self.skip(b"]\n")?;
        let (priority, mime) = head.split_once(':')?;
        let mut lines = Vec::new();
        while self.0.first().map_or(false, |byte| *byte != b'[') {
            lines.push(self.line()?);
        }
        let priority = priority.parse().ok()?;
        Some((mime.into(), Section { priority, lines }))
    }

    /// Parses a line: `1>28=`, the value's length in two bytes, and the value. It may be followed by a mask after `&`, a word size after
    /// `~` and a number of positions after `+`. Words are in this machine's byte order.
    fn line(&mut self) -> Option<Line> {
        let indent = self.number().unwrap_or(0);
        self.skip(b">")?;
        let start = self.number()?;
        self.skip(b"=")?;
        let length = match self.take(2)? {
            [high, low] => usize::from(*high) << 8 | usize::from(*low),
            _ => return None,
        };
        let mut value = self.take(length)?.to_vec();
        let mut mask = match self.skip(b"&") {
            Some(()) => Some(self.take(length)?.to_vec()),
            None => None,
        };
        let word = self.after(b"~")?.unwrap_or(1);
        let places = self.after(b"+")?.unwrap_or(1);
        self.skip(b"\n")?;
        if cfg!(target_endian = "little") && word > 1 {
            let turn = |bytes: &mut Vec<u8>| bytes.chunks_mut(word).for_each(<[u8]>::reverse);
            turn(&mut value);
            mask.iter_mut().for_each(turn);
        }
        Some(Line {
            indent,
            places: start..start.checked_add(places)?,
            value,
            mask,
        })
    }

    /// Parses the number after this sign, if the sign is there.
    fn after(&mut self, sign: &[u8]) -> Option<Option<usize>> {
        match self.skip(sign) {
            Some(()) => self.number().map(Some),
            None => Some(None),
        }
    }

    fn skip(&mut self, text: &[u8]) -> Option<()> {
        self.0 = self.0.strip_prefix(text)?;
        Some(())
    }

    fn take(&mut self, count: usize) -> Option<&'a [u8]> {
        let taken = self.0.get(..count)?;
        self.0 = &self.0[count..];
        Some(taken)
    }

    fn number(&mut self) -> Option<usize> {
        let count = self.0.iter().take_while(|byte| byte.is_ascii_digit()).count();
        std::str::from_utf8(self.take(count)?).ok()?.parse().ok()
    }
}

#[cfg(test)]
mod tests {
    use super::*;

    const SUBCLASSES: &str = "x/special x/general\nx/script text/plain\nx/ring x/other-ring\nx/other-ring x/ring\n";

    fn magic() -> Magic {
        let file = b"MIME-Magic\0\n[80:x/special]\n>0=\0\x04Head\n1>6=\0\x03one\n1>6=\0\x03two\n[50:x/general]\n>0=\0\x04Head\n\
            [50:x/masked]\n>1=\0\x02\x0f\xf0&\xff\xf0\n[50:x/anywhere]\n>0=\0\x05[\n]\n\n+100\n[50:x/word]\n>0=\0\x02\x12\x34~2\n\
            [40:x/masked]\n>0=\0\x01m\n";
        Magic::new(file, SUBCLASSES)
    }

    #[test]
    fn the_content_decides_and_otherwise_the_first_type_counts() {
        let magic = magic();
        let types = [
            "x/none",
            "x/general",
            "x/special",
            "x/masked",
            "x/anywhere",
            "x/script",
            "x/ring",
        ];
        for (content, mime) in [
            (&b""[..], "x/none"),
            (b"\0\x01", "x/none"),
            (b"Head..one", "x/special"),
            (b"Head..two", "x/special"),
            (b"Head..six", "x/general"),
            (b"Head", "x/general"),
            (b"m\x0f\xff", "x/masked"),
            (b"m\0\0", "x/masked"),
            (b"\x01[\n]\n\n", "x/anywhere"),
            (b"a text", "x/script"),
        ] {
            assert_eq!(magic.choose(&types, content), Some(mime), "{content:?}");
        }
        assert_eq!(magic.choose(&[], b"a"), None);
    }

    #[test]
    fn a_special_form_is_known_by_the_content_of_the_type_above_it() {
        let magic = Magic::new(b"MIME-Magic\0\n[50:x/general]\n>0=\0\x01G\n", SUBCLASSES);
        assert_eq!(magic.choose(&["x/none", "x/special"], b"G\0"), Some("x/special"));
        assert_eq!(magic.choose(&["x/special", "x/general"], b"G\0"), Some("x/general"));
    }

    #[test]
    fn what_has_control_characters_is_no_text() {
        let choose = |content: &[u8]| magic().choose(&["text/one", "x/none", "x/script"], content);
        assert_eq!(choose(b"gr\xfc\xdfe\r\n\t"), Some("text/one"));
        assert_eq!(choose(b"\0"), Some("x/none"));
        assert_eq!(magic().choose(&["text/one", "x/script"], b"\0"), Some("text/one"));
    }

    #[test]
    fn words_have_the_order_of_the_machine() {
        let content = 0x1234_u16.to_ne_bytes();
        assert_eq!(magic().choose(&["x/none", "x/word"], &content), Some("x/word"));
    }

    #[test]
    fn a_file_that_is_cut_says_what_it_can() {
        let file = b"MIME-Magic\0\n[50:x/a]\n>0=\0\x01A\n[50:x/b]\n>0=\0\x09B";
        for length in 0..=file.len() {
            let chosen = Magic::new(&file[..length], "").choose(&["x/none", "x/a"], b"A\0");
            assert_eq!(chosen, Some(if length < 28 { "x/none" } else { "x/a" }), "{length}");
        }
        assert_eq!(
            Magic::new(b"[50:x/a]\n>0=\0\x01A\n", "").choose(&["x/none", "x/a"], b"A"),
            Some("x/none")
        );
    }
}

//! Determines the MIME types of files by name or, if the name fits no type or several, by the first bytes of the content.
//!
//! The names come from `globs2` in the Shared MIME-info Database, which the package shared-mime-info provides. Without it, the extensions
//! in `/etc/mime.types` from the package media-types are used.

use super::magic::Magic;
use glob::{MatchOptions, Pattern};
use std::collections::HashMap;
use std::fs;
use std::path::Path;

/// The type of a file that can't be determined.
pub const UNKNOWN: &str = "application/octet-stream";

const DATABASE: &str = "/usr/share/mime";
const EXTENSIONS: &str = "/etc/mime.types";

/// Matches a glob without regard to case, as the specification requires for globs without the flag `cs`.
const ANY_CASE: MatchOptions = MatchOptions {
    case_sensitive: false,
    require_literal_separator: false,
    require_literal_leading_dot: false,
};

/// A glob's types, in the order in which they are listed. Of the globs that match a name, the one with the greatest weight wins; among
/// equal weights, the longest.
#[derive(Clone, Debug)]
struct Rule {
    weight: u32,
    length: usize,
    mimes: Vec<String>,
}

impl Rule {
    fn rank(&self) -> (u32, usize) {
        (self.weight, self.length)
    }
}

/// The known types, by file name.
#[derive(Debug, Default)]
pub struct Types {
    /// The types by whole name, and by the ending that follows a `*` if this is the glob's only wildcard. Both exist in lower case and in
    /// exact case.
    names: HashMap<String, Rule>,
    endings: HashMap<String, Rule>,
    exact_endings: HashMap<String, Rule>,
    others: Vec<(Pattern, Rule)>,
    magic: Magic,
    /// The name of the database that the types come from, for people.
    source: &'static str,
    /// Whether the database can identify files by content.
    has_contents: bool,
}

impl Types {
    /// Loads the types known on this machine.
    pub fn of_machine() -> Self {
        if let Ok(globs) = fs::read_to_string(Path::new(DATABASE).join("globs2")) {
            return Self {
                source: "/usr/share/mime (shared-mime-info)",
                has_contents: ["magic", "aliases", "subclasses"]
                    .iter()
                    .all(|name| Path::new(DATABASE).join(name).exists()),
                magic: Magic::read(Path::new(DATABASE)),
                ..Self::from_globs(&globs)
            };
        }
        match fs::read_to_string(EXTENSIONS) {
            Ok(extensions) => Self {
                source: "/etc/mime.types (media-types)",
                ..Self::from_extensions(&extensions)
            },
            Err(_) => Self {
                source: "no database, because there is neither /usr/share/mime nor /etc/mime.types",
                ..Self::default()
            },
        }
    }

    /// Returns the name of the database that the types come from, for people.
    pub fn source(&self) -> &'static str {
        self.source
    }

    fn from_globs(text: &str) -> Self {
        let mut types = Self::default();
        for line in text.lines().filter(|line| !line.starts_with('#')) {
            let mut parts = line.split(':');
            if let (Some(Ok(weight)), Some(mime), Some(glob)) =
                (parts.next().map(str::parse), parts.next(), parts.next())
            {
                let exact = parts
                    .next()
                    .map_or(false, |flags| flags.split(',').any(|flag| flag == "cs"));
                types.add(weight, mime, glob, exact);
            }
        }
        types
    }

    /// Parses lines that consist of a type and its extensions.
    fn from_extensions(text: &str) -> Self {
        let mut types = Self::default();
        for line in text.lines().filter(|line| !line.starts_with('#')) {
            let mut words = line.split_whitespace();
            let mime = words.next().unwrap_or_default();
            words.for_each(|extension| types.add(50, mime, &format!("*.{extension}"), false));
        }
        types
    }

    fn add(&mut self, weight: u32, mime: &str, glob: &str, exact: bool) {
        let rule = Rule {
            weight,
            length: glob.len(),
            mimes: vec![mime.into()],
        };
        let is_plain = |text: &str| !text.contains(|sign| "*?[".contains(sign));
        match glob.strip_prefix('*') {
            Some(ending) if is_plain(ending) && exact => better(&mut self.exact_endings, ending.into(), rule),
            // For programs that don't know the flag, the database lists such a glob again without it.
            Some(ending) if is_plain(ending) && self.exact_endings.contains_key(ending) => {}
            Some(ending) if is_plain(ending) => better(&mut self.endings, ending.to_lowercase(), rule),
            None if is_plain(glob) => better(&mut self.names, glob.to_lowercase(), rule),
            _ => self.others.extend(Pattern::new(glob).map(|pattern| (pattern, rule))),
        }
    }

    /// Returns the types that fit the name in exact case or, if there are none, those that fit in any case. There may be several if they
    /// fit equally well.
    pub fn of_name(&self, name: &str) -> Vec<&str> {
        let best = self.best(name);
        if best.is_empty() {
            return self.best(&name.to_lowercase());
        }
        best
    }

    fn best(&self, name: &str) -> Vec<&str> {
        let others = self.others.iter();
        let others = others.filter_map(|(pattern, rule)| pattern.matches_with(name, ANY_CASE).then_some(rule));
        let mut best: Vec<&Rule> = Vec::new();
        let names = self.names.get(name).into_iter();
        let endings = endings(&self.endings, name).chain(endings(&self.exact_endings, name));
        for rule in names.chain(endings).chain(others) {
            let kept = best.first().map(|best| best.rank());
            if kept < Some(rule.rank()) {
                best.clear();
            }
            if kept <= Some(rule.rank()) {
                best.push(rule);
            }
        }
        best.iter().flat_map(|rule| &rule.mimes).map(String::as_str).collect()
    }

    /// Returns the type of a file whose name fits these types and whose content begins with these bytes.
    pub fn of_content<'a>(&self, mimes: &[&'a str], begin: &[u8]) -> &'a str {
        if let Some(mime) = self.magic.choose(mimes, begin) {
            return mime;
        }
        match begin {
            [] => "application/x-zerosize",
            _ if self.has_contents => tree_magic_mini::from_u8(begin),
            _ if !begin.contains(&0)
                && std::str::from_utf8(begin).map_or_else(|error| error.error_len().is_none(), |_| true) =>
            {
                "text/plain"
            }
            _ => UNKNOWN,
        }
    }
}

/// Keeps the better of two rules or, if they are equally good, the types of both.
fn better(rules: &mut HashMap<String, Rule>, key: String, rule: Rule) {
    match rules.get_mut(&key) {
        Some(kept) if kept.rank() > rule.rank() => {}
        Some(kept) if kept.rank() == rule.rank() => {
            let new = rule.mimes.into_iter().filter(|mime| !kept.mimes.contains(mime));
            let new: Vec<String> = new.collect();
            kept.mimes.extend(new);
        }
        _ => drop(rules.insert(key, rule)),
    }
}

/// Returns the rules whose endings match the name.
fn endings<'a: 'n, 'n>(rules: &'a HashMap<String, Rule>, name: &'n str) -> impl Iterator<Item = &'a Rule> + 'n {
    let places = name.char_indices().map(|(at, _)| at);
    places.filter_map(move |at| rules.get(&name[at..]))
}

#[cfg(test)]
mod tests {
    use super::*;

    const GLOBS: &str = "# comment\n50:text/plain:*.txt\n50:application/gzip:*.gz\n50:application/x-compressed-tar:*.tar.gz\n\
                         50:text/x-c++src:*.C:cs\n50:text/x-c++src:*.C\n50:text/x-csrc:*.c:cs\n50:text/x-csrc:*.c\n50:text/x-makefile:makefile\n10:text/x-readme:readme*\n\
                         60:image/gif:*.gif\n40:image/other:*.gif\nbroken\n50:video/b:*.two\n50:audio/a:*.two\n50:video/b:*.two\n";

    #[test]
    fn the_weight_counts_and_then_the_length() {
        let types = Types::from_globs(GLOBS);
        for (name, mimes) in [
            ("a.txt", &["text/plain"][..]),
            ("A.TXT", &["text/plain"]),
            ("a.tar.gz", &["application/x-compressed-tar"]),
            ("a.c", &["text/x-csrc"]),
            ("a.C", &["text/x-c++src"]),
            ("Makefile", &["text/x-makefile"]),
            ("README", &["text/x-readme"]),
            ("README.txt", &["text/plain"]),
            ("a.gif", &["image/gif"]),
            ("é.txt", &["text/plain"]),
            ("a.TWO", &["video/b", "audio/a"]),
            ("txt", &[]),
            ("", &[]),
        ] {
            assert_eq!(types.of_name(name), mimes, "{name}");
        }
    }

    #[test]
    fn extensions_are_read_too() {
        let types = Types::from_extensions("# comment\ntext/html\thtml htm\nx/none\n");
        assert_eq!(types.of_name("a.htm"), ["text/html"]);
        assert!(types.of_name("a").is_empty());
    }

    #[test]
    fn a_text_is_known_by_its_content() {
        let types = Types::of_machine();
        assert_eq!(types.of_content(&[], b""), "application/x-zerosize");
        assert_eq!(types.of_content(&[], "Zeile für Zeile\n".as_bytes()), "text/plain");
        assert_ne!(types.of_content(&[], &[0, 1, 2, 255]), "text/plain");
    }
}

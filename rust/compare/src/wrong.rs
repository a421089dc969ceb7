//! Coders that are wrong on purpose, one mistake each: the control of the comparison, which must notice every one.
//!
//! All of them are one plain coder with a place for each mistake. Without a mistake it is right, and nothing may be
//! noticed: what is noticed of the others is then their mistake.

use crate::calls::Calls;
use judge::codes::{allowed, once, BRANCHES, WHITE};
use judge::{plate, text, Content, Rule};
use std::cell::RefCell;
use std::str::Utf8Error;
use zengilvar::raw::{Built, Coded};

/// Every mistake: its name, and what the coder does.
pub const MISTAKES: [(&str, &str); 51] = [
    ("length_rising", "sorts patterns of one letter by length rising"),
    ("text_order_reversed", "sorts patterns of one length against the text's order"),
    ("line_of_8", "tells one line more with refusal 8"),
    ("rust_line", "tells the Rust's line with refusal 3"),
    ("line_behind", "counts the newline of an item that is not recognised too"),
    ("written_before_9", "writes a byte and then refuses with 9"),
    ("zero_behind_plate", "puts a zero behind the plate"),
    ("lower_178", "does not lower U+0178"),
    ("lower_130", "does not lower U+0130"),
    ("lower_17f", "lowers U+017F to s"),
    ("lower_d7", "lowers U+00D7"),
    ("lower_ascii", "lowers ASCII alone"),
    ("lower_410", "lowers U+0410 by 80"),
    ("refused_45f", "refuses U+045F"),
    ("11_before_2", "refuses with 11 before 2"),
    ("place_of_break", "tells the place of the byte that breaks a sequence"),
    ("place_in_characters", "counts the place in characters"),
    ("place_of_space", "tells the place of white space that a name may hold with 11"),
    ("place_of_11_with_2", "tells with 2 the place of a character that is not allowed"),
    ("place_with_1", "tells byte 256 with 1"),
    ("kept_nbsp", "does not drop U+00A0"),
    ("folded_twice", "folds what was folded"),
    ("room_65", "holds 65 branches"),
    ("room_at_end", "tests the room only at the end"),
    ("room_before_merge", "tests the room before equal branches are dropped"),
    ("last_of_equal", "takes the last of equal patterns"),
    ("shortest", "takes the shortest pattern"),
    ("start_by_position", "takes the start field at position zero alone"),
    ("no_group_between", "lets a character without group come between m and n"),
    ("no_match_passed", "does not count a group without a match as a character before"),
    ("by_bytes", "goes on behind the pattern in bytes"),
    ("y_vowel", "takes y for a vowel"),
    ("vowel_over_start", "prefers the field before a vowel to the start's"),
    ("last_alternative", "encodes by the last alternative"),
    ("mn_not_forced", "does not append between m and n"),
    ("nm_not_forced", "does not append between n and m"),
    ("mm_forced", "appends between m and m"),
    ("equals", "compares the last replacement for equality"),
    ("not_cut", "cuts at six digits only at the end"),
    ("last_kept_full", "leaves the last replacement when the code is full"),
    ("last_kept_empty", "leaves the last replacement at an empty one"),
    ("last_kept_not_appended", "leaves the last replacement when nothing is appended"),
    ("digits_alone", "drops branches that are equal in digits alone"),
    ("not_merged", "drops no branch"),
    ("sorted", "sorts the codes"),
    ("doubles", "lists a code as often as it has branches"),
    ("doubles_apart", "drops a code only behind an equal one"),
    ("last_place", "keeps the last place of a code, not the first"),
    ("room_of_codes", "measures the room by the codes"),
    ("zero_behind_codes", "puts a zero behind the codes"),
    ("any_plate", "says of any bytes that they are a plate"),
];

/// More branches than any list has, where a mistake lets them grow.
const TOO_MANY: usize = 4_096;

/// The coder with this mistake; with none it is right.
pub struct Wrong {
    mistake: &'static str,
    /// The plate that was read last, and what it says.
    read: RefCell<(Vec<u8>, Option<Content>)>,
}

#[derive(Clone, PartialEq)]
struct Branch {
    digits: String,
    last: String,
}

/// A step of the walk: the rule's alternatives, and whether each is appended anyway.
struct Step<'a> {
    alternatives: &'a [String],
    anyway: bool,
    room: usize,
}

impl Wrong {
    pub fn new(mistake: &'static str) -> Self {
        Self { mistake, read: RefCell::default() }
    }

    fn is(&self, mistake: &str) -> bool {
        self.mistake == mistake
    }

    fn content(&self, plate: &[u8]) -> Option<Content> {
        let mut read = self.read.borrow_mut();
        if read.0 != plate {
            *read = (plate.to_vec(), plate::read(plate));
        }
        read.1.clone()
    }

    fn sorted(&self, mut content: Content) -> Content {
        let first = |rule: &Rule| rule.pattern.chars().next();
        let length = |rule: &Rule| rule.pattern.len();
        if self.is("length_rising") {
            content.rules.sort_by(|a, b| first(a).cmp(&first(b)).then(length(a).cmp(&length(b))));
        }
        if self.is("text_order_reversed") {
            content.rules.reverse();
            content.rules.sort_by(|a, b| first(a).cmp(&first(b)).then(length(b).cmp(&length(a))));
        }
        content
    }

    /// The place where a name stops being UTF-8.
    fn broken_at(&self, name: &[u8], broken: Utf8Error) -> usize {
        let place = broken.valid_up_to();
        let good = std::str::from_utf8(&name[..place]).expect("up to there it is UTF-8");
        if self.is("place_of_break") {
            return broken.error_len().map_or(name.len(), |wide| place + wide);
        }
        if self.is("place_in_characters") {
            return good.chars().count();
        }
        match good.char_indices().find(|(_, c)| !allowed(*c)) {
            Some((at, _)) if self.is("place_of_11_with_2") => at,
            _ => place,
        }
    }

    /// The place of the first character that a name may not hold.
    fn strange_at(&self, text: &str) -> Option<usize> {
        let refused = |c: char| !allowed(c) || self.is("refused_45f") && c == '\u{45F}';
        let strange = |c: char| refused(c) || self.is("place_of_space") && WHITE.contains(&c);
        text.chars().find(|c| refused(*c))?;
        if self.is("place_in_characters") {
            return text.chars().position(strange);
        }
        text.char_indices().find(|(_, c)| strange(*c)).map(|(at, _)| at)
    }

    /// The characters of a name as they are coded, or its refusal and the place.
    fn source(&self, content: &Content, name: &[u8]) -> Result<Vec<char>, (u64, usize)> {
        if name.len() > 256 {
            return Err((1, if self.is("place_with_1") { 256 } else { 0 }));
        }
        let lossy = String::from_utf8_lossy(name);
        if self.is("11_before_2") && lossy.chars().any(|c| c != '\u{FFFD}' && !allowed(c)) {
            return Err((11, 0));
        }
        let text = std::str::from_utf8(name).map_err(|broken| (2, self.broken_at(name, broken)))?;
        if let Some(place) = self.strange_at(text) {
            return Err((11, place));
        }
        let kept = |c: &char| !WHITE.contains(c) || self.is("kept_nbsp") && *c == '\u{A0}';
        Ok(text.chars().filter(kept).map(|c| self.folded(content, self.lowered(c))).collect())
    }

    fn lowered(&self, c: char) -> char {
        match c {
            '\u{178}' if self.is("lower_178") => c,
            '\u{130}' if self.is("lower_130") => c,
            '\u{17F}' if self.is("lower_17f") => 's',
            '\u{D7}' if self.is("lower_d7") => '\u{F7}',
            '\u{410}' if self.is("lower_410") => '\u{460}',
            _ if self.is("lower_ascii") && !c.is_ascii() => c,
            '\u{130}' => 'i',
            _ => c.to_lowercase().next().unwrap_or(c),
        }
    }

    fn folded(&self, content: &Content, c: char) -> char {
        let once = |c: char| *content.foldings.get(&c).filter(|_| content.folding).unwrap_or(&c);
        match self.is("folded_twice") {
            true => once(once(c)),
            false => once(c),
        }
    }

    /// The rule that is taken at the front of these characters and its pattern's length; whether there is a group.
    fn found<'a>(&self, content: &'a Content, rest: &[char]) -> (Option<(&'a Rule, usize)>, bool) {
        let mut taken: Option<(&Rule, usize)> = None;
        let mut group = false;
        for rule in content.rules.iter().filter(|rule| rule.pattern.starts_with(rest[0])) {
            group = true;
            let pattern: Vec<char> = rule.pattern.chars().collect();
            let better = match taken {
                None => true,
                Some((_, length)) if self.is("last_of_equal") => pattern.len() >= length,
                Some((_, length)) if self.is("shortest") => pattern.len() < length,
                Some((_, length)) => pattern.len() > length,
            };
            if better && rest.starts_with(&pattern) {
                taken = Some((rule, pattern.len()));
            }
        }
        (taken, group)
    }

    /// The alternatives that a call meets: all, or the first.
    fn alternatives<'a>(&self, rule: &'a Rule, before: Option<char>, next: Option<&char>, list: bool) -> &'a [String] {
        let vowel = next.is_some_and(|c| "aeiou".contains(*c) || self.is("y_vowel") && *c == 'y');
        let field = match before {
            None if !(vowel && self.is("vowel_over_start")) => &rule.fields[0],
            _ if vowel => &rule.fields[1],
            _ => &rule.fields[2],
        };
        match list {
            true => field,
            false if self.is("last_alternative") => &field[field.len() - 1..],
            false => &field[..1],
        }
    }

    fn is_forced(&self, before: Option<char>, first: char) -> bool {
        match (before, first) {
            (Some('m'), 'n') => !self.is("mn_not_forced"),
            (Some('n'), 'm') => !self.is("nm_not_forced"),
            (Some('m'), 'm') => self.is("mm_forced"),
            _ => false,
        }
    }

    /// The character before, for the next one.
    fn behind(&self, before: Option<char>, first: char, group: bool, taken: bool) -> Option<char> {
        match (group, taken) {
            (false, _) if self.is("start_by_position") => before.or(Some('\0')),
            (false, _) if self.is("no_group_between") => before.map(|_| '\0'),
            (false, _) => before,
            (true, false) if self.is("no_match_passed") => before,
            (true, _) => Some(first),
        }
    }

    fn extend(&self, branch: &Branch, alternative: &str, anyway: bool) -> Branch {
        let ends = match self.is("equals") {
            true => branch.last == alternative,
            false => branch.last.ends_with(alternative),
        };
        let mut digits = branch.digits.clone();
        if anyway || !ends {
            digits += alternative;
        }
        if !self.is("not_cut") {
            digits.truncate(6);
        }
        let kept = self.is("last_kept_full") && branch.digits.len() == 6
            || self.is("last_kept_empty") && alternative.is_empty()
            || self.is("last_kept_not_appended") && !anyway && ends;
        let last = if kept { branch.last.clone() } else { alternative.to_string() };
        Branch { digits, last }
    }

    /// All branches after a step; none if the room is too small on the way.
    fn step(&self, branches: &[Branch], step: &Step) -> Option<Vec<Branch>> {
        let mut next: Vec<Branch> = Vec::new();
        for branch in branches {
            for alternative in step.alternatives {
                let met = self.extend(branch, alternative, step.anyway);
                let dropped = match self.mistake {
                    "digits_alone" => next.iter().any(|other| other.digits == met.digits),
                    "not_merged" => false,
                    _ => next.contains(&met),
                };
                if self.is("room_before_merge") && next.len() + 1 > step.room || next.len() > TOO_MANY {
                    return None;
                }
                if !dropped {
                    next.push(met);
                }
            }
        }
        Some(next)
    }

    /// How many count against the room.
    fn held(&self, branches: &[Branch]) -> usize {
        match self.is("room_of_codes") {
            true => once(branches.iter().map(|branch| branch.digits.clone())).len(),
            false => branches.len(),
        }
    }

    /// The codes of a name, or 12.
    fn walk(&self, content: &Content, source: &[char], room: usize, list: bool) -> Result<Vec<String>, u64> {
        let mut branches = vec![Branch { digits: String::new(), last: String::new() }];
        let is_over = |branches: &[Branch]| list && self.held(branches) > room;
        if is_over(&branches) {
            return Err(12);
        }
        let mut before: Option<char> = None;
        let mut at = 0;
        while at < source.len() {
            let first = source[at];
            let (taken, group) = self.found(content, &source[at..]);
            match taken {
                Some((rule, length)) => {
                    at += if self.is("by_bytes") { rule.pattern.len() } else { length };
                    let alternatives = self.alternatives(rule, before, source.get(at), list);
                    let room = if list { room } else { 1 };
                    let step = Step { alternatives, anyway: self.is_forced(before, first), room };
                    branches = self.step(&branches, &step).ok_or(12u64)?;
                    if is_over(&branches) && !self.is("room_at_end") {
                        return Err(12);
                    }
                }
                None => at += 1,
            }
            before = self.behind(before, first, group, taken.is_some());
        }
        match is_over(&branches) {
            true => Err(12),
            false => Ok(branches
                .into_iter()
                .map(|branch| format!("{:0<6}", &branch.digits[..branch.digits.len().min(6)]))
                .collect()),
        }
    }

    /// The codes as they are listed.
    fn listed(&self, mut codes: Vec<String>) -> Vec<String> {
        if self.is("sorted") {
            codes.sort();
        }
        match self.mistake {
            "doubles" => codes,
            "doubles_apart" => {
                codes.dedup();
                codes
            }
            "last_place" => {
                codes.reverse();
                let mut kept = once(codes);
                kept.reverse();
                kept
            }
            _ => once(codes),
        }
    }

    fn code(&self, plate: &[u8], name: &[u8], out: &mut [u8], list: bool) -> Coded {
        let room = match self.is("room_65") && out.len() >= 447 {
            true => BRANCHES + 1,
            false => BRANCHES.min((out.len() + 1) / 7),
        };
        let answer = || {
            let content = self.content(plate).ok_or((10u64, 0))?;
            let source = self.source(&content, name)?;
            if !list && out.len() < 6 {
                return Err((12, 0));
            }
            let walked = self.walk(&content, &source, room, list).map_err(|number| (number, 0))?;
            let codes = self.listed(walked);
            let joined = codes.join("|");
            if joined.len() > out.len() {
                return Err((12, 0));
            }
            Ok((joined, codes.len() as u64))
        };
        match answer() {
            Err((number, place)) => Coded { number, count: 0, place: place as u64 },
            Ok((joined, count)) => {
                out[..joined.len()].copy_from_slice(joined.as_bytes());
                if self.is("zero_behind_codes") && out.len() > joined.len() {
                    out[joined.len()] = 0;
                }
                Coded { number: 0, count, place: 0 }
            }
        }
    }

    /// The line that is told of a fault in a text.
    fn line(&self, text: &[u8], fault: text::Fault) -> u64 {
        let newlines = text.iter().filter(|byte| **byte == b'\n').count() as u64;
        match fault.number {
            8 if self.is("line_of_8") => fault.line + 1,
            3 if self.is("line_behind") => fault.line + (fault.line <= newlines) as u64,
            3 if self.is("rust_line") => {
                let text = std::str::from_utf8(text).expect("the judge has read it");
                oracle::build(text, true).err().expect("the Rust refuses it too") as u64
            }
            _ => fault.line,
        }
    }
}

impl Calls for Wrong {
    fn build(&self, text: &[u8], folding: bool, out: &mut [u8]) -> Built {
        match text::read(text, folding) {
            Err(fault) => {
                Built { number: fault.number, line: self.line(text, fault), length: 0 }
            }
            Ok(content) => {
                let plate = plate::write(&self.sorted(content));
                let length = plate.len();
                if out.len() < length {
                    if self.is("written_before_9") && !out.is_empty() {
                        out[0] = 1;
                    }
                    return Built { number: 9, line: 0, length: 0 };
                }
                out[..length].copy_from_slice(&plate);
                if self.is("zero_behind_plate") && out.len() > length {
                    out[length] = 0;
                }
                Built { number: 0, line: 0, length: length as u64 }
            }
        }
    }

    fn encode(&self, plate: &[u8], name: &[u8], out: &mut [u8]) -> Coded {
        self.code(plate, name, out, false)
    }

    fn list(&self, plate: &[u8], name: &[u8], out: &mut [u8]) -> Coded {
        self.code(plate, name, out, true)
    }
    fn is_plate(&self, plate: &[u8]) -> bool {
        self.is("any_plate") || self.content(plate).is_some()
    }
}

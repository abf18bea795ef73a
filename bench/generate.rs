//! Writes the operation lines of a log to standard output. `generate SHAPE COUNT [SPELLING]`: the
//! same words give the same lines.

use std::env;
use std::fmt;
use std::io::{self, BufWriter, Write};
use std::process::ExitCode;

const USAGE: &str = "usage: generate SHAPE COUNT [SPELLING]
SHAPE is one of
  typing            three replicas type in rounds, jump and rub out, and merge after each round
  shuffled          the same lines in an order that chance gives
  chain             one replica types on and on, each element after the one before
  waiting           the chain with its last line first: all waits until the last line
  siblings-rising   insertions at the root, in rising order of identifiers
  siblings-falling  insertions at the root, in falling order of identifiers
  author            one replica types, rubs out and goes elsewhere: a quarter are deletions
A SPELLING other than the usual one is one of
  loose             the members in another order, with a blank after each colon and comma
  numbered          each character by its number, as \\u0061
  edits             of author alone: not operations but what was done, as [PLACE,DELETED,TEXT]";

/// How many replicas type at once.
const REPLICAS: u16 = 3;
/// The operations of a typing run, on average.
const RUN: u64 = 12;
/// While typing, one operation in so many is a deletion.
const DELETION: u64 = 10;
/// A replica begins one run in so many elsewhere, and the others where it stopped.
const JUMP: u64 = 2;

/// What is typed: mostly letters and blanks, with some characters that JSON escapes and some of
/// more than one byte.
const CHARACTERS: &str = "eeeeetttaaaooiinnsshhrrddlcumwfgypbvk      .,'\"\\\n\té漢🙂";

#[derive(Clone, Copy, PartialEq)]
struct Id {
    counter: u64,
    replica: u16,
}

const ROOT: Id = Id {
    counter: 0,
    replica: 0,
};

enum Operation {
    Insert { id: Id, parent: Id, char: char },
    Delete { id: Id },
}

impl fmt::Display for Id {
    fn fmt(&self, f: &mut fmt::Formatter) -> fmt::Result {
        write!(f, "[{},{}]", self.counter, self.replica)
    }
}

impl fmt::Display for Operation {
    fn fmt(&self, f: &mut fmt::Formatter) -> fmt::Result {
        match self {
            Operation::Insert { id, parent, char } => {
                f.write_str("{\"char\":\"")?;
                write_char(f, *char)?;
                write!(f, "\",\"id\":{id},\"op\":\"ins\",\"parent\":{parent}}}")
            }
            Operation::Delete { id } => write!(f, "{{\"id\":{id},\"op\":\"del\"}}"),
        }
    }
}

/// A line of the same operation with its members in another order, and blanks.
struct Loose<'a>(&'a Operation);

impl fmt::Display for Loose<'_> {
    fn fmt(&self, f: &mut fmt::Formatter) -> fmt::Result {
        match self.0 {
            Operation::Insert { id, parent, char } => {
                let (parent, id) = (LooseId(parent), LooseId(id));
                write!(
                    f,
                    "{{\"parent\": {parent}, \"op\": \"ins\", \"id\": {id}, \"char\": \""
                )?;
                write_char(f, *char)?;
                f.write_str("\"}")
            }
            Operation::Delete { id } => write!(f, "{{\"op\": \"del\", \"id\": {}}}", LooseId(id)),
        }
    }
}

struct LooseId<'a>(&'a Id);

impl fmt::Display for LooseId<'_> {
    fn fmt(&self, f: &mut fmt::Formatter) -> fmt::Result {
        write!(f, "[{}, {}]", self.0.counter, self.0.replica)
    }
}

/// A line of the same operation with its character by its number.
struct Numbered<'a>(&'a Operation);

impl fmt::Display for Numbered<'_> {
    fn fmt(&self, f: &mut fmt::Formatter) -> fmt::Result {
        match self.0 {
            Operation::Insert { id, parent, char } => {
                f.write_str("{\"char\":\"")?;
                for unit in char.encode_utf16(&mut [0; 2]) {
                    write!(f, "\\u{unit:04x}")?;
                }
                write!(f, "\",\"id\":{id},\"op\":\"ins\",\"parent\":{parent}}}")
            }
            Operation::Delete { .. } => write!(f, "{}", self.0),
        }
    }
}

/// What an author did: a character was inserted at a place, or the one there was deleted.
struct Edit {
    place: usize,
    inserted: Option<char>,
}

impl fmt::Display for Edit {
    fn fmt(&self, f: &mut fmt::Formatter) -> fmt::Result {
        let deleted = u8::from(self.inserted.is_none());
        write!(f, "[{},{deleted},\"", self.place)?;
        if let Some(char) = self.inserted {
            write_char(f, char)?;
        }
        f.write_str("\"]")
    }
}

/// The character as it stands in a JSON string.
fn write_char(f: &mut fmt::Formatter, char: char) -> fmt::Result {
    match char {
        '"' => f.write_str("\\\""),
        '\\' => f.write_str("\\\\"),
        '\n' => f.write_str("\\n"),
        '\t' => f.write_str("\\t"),
        _ => write!(f, "{char}"),
    }
}

/// Numbers that look random, always the same ones (SplitMix64).
struct Random {
    state: u64,
    characters: Vec<char>,
}

impl Random {
    fn new() -> Self {
        Random {
            state: 1,
            characters: CHARACTERS.chars().collect(),
        }
    }

    fn number(&mut self) -> u64 {
        self.state = self.state.wrapping_add(0x9e37_79b9_7f4a_7c15);
        let mut mixed = self.state;
        mixed = (mixed ^ (mixed >> 30)).wrapping_mul(0xbf58_476d_1ce4_e5b9);
        mixed = (mixed ^ (mixed >> 27)).wrapping_mul(0x94d0_49bb_1331_11eb);
        mixed ^ (mixed >> 31)
    }

    fn below(&mut self, bound: usize) -> usize {
        (self.number() % bound as u64) as usize
    }

    /// Is true once in so many times.
    fn once_in(&mut self, times: u64) -> bool {
        self.number() % times == 0
    }

    fn character(&mut self) -> char {
        let place = self.below(self.characters.len());
        self.characters[place]
    }
}

/// An element of the text that is typed.
struct Element {
    id: Id,
    deleted: bool,
}

/// Three replicas, and all that they typed so far.
struct Typing {
    random: Random,
    /// The first is the root.
    elements: Vec<Element>,
    /// For each replica, the element that it stopped after.
    cursors: [usize; REPLICAS as usize],
    clock: u64,
    operations: Vec<Operation>,
}

impl Typing {
    fn new() -> Self {
        Typing {
            random: Random::new(),
            elements: vec![Element {
                id: ROOT,
                deleted: false,
            }],
            cursors: [0; REPLICAS as usize],
            clock: 0,
            operations: Vec::new(),
        }
    }

    /// Each replica types a run in the text that all had after the round before.
    fn round(&mut self) {
        let begun = self.clock;
        let merged = self.elements.len();
        for replica in 1..=REPLICAS {
            let start = self.start(replica, merged);
            self.run(replica, start, begun);
        }
    }

    /// Where the replica types next: after a shown element, one of the first `merged` or its own.
    fn start(&mut self, replica: u16, merged: usize) -> usize {
        let cursor = self.cursors[usize::from(replica) - 1];
        let mut start = if self.random.once_in(JUMP) {
            self.random.below(merged)
        } else {
            cursor
        };
        while self.elements[start].deleted {
            start = self.random.below(merged);
        }
        start
    }

    /// Types after an element, rubbing out now and then.
    fn run(&mut self, replica: u16, start: usize, begun: u64) {
        let mut counter = begun;
        let mut cursor = start;
        let mut before_cursor = Vec::new();
        loop {
            if cursor != 0 && self.random.once_in(DELETION) {
                self.delete(cursor);
                match before_cursor.pop() {
                    Some(left) => cursor = left,
                    None => break,
                }
            } else {
                counter += 1;
                before_cursor.push(cursor);
                cursor = self.insert(Id { counter, replica }, cursor);
            }
            if self.random.once_in(RUN) {
                break;
            }
        }
        self.cursors[usize::from(replica) - 1] = cursor;
        self.clock = self.clock.max(counter);
    }

    fn delete(&mut self, element: usize) {
        self.elements[element].deleted = true;
        let id = self.elements[element].id;
        self.operations.push(Operation::Delete { id });
    }

    fn insert(&mut self, id: Id, parent: usize) -> usize {
        self.operations.push(Operation::Insert {
            id,
            parent: self.elements[parent].id,
            char: self.random.character(),
        });
        self.elements.push(Element { id, deleted: false });
        self.elements.len() - 1
    }
}

/// One who writes a text alone: the shown elements before the cursor, and those after it, the next one last.
struct Author {
    random: Random,
    before: Vec<Id>,
    behind: Vec<Id>,
    clock: u64,
    operations: Vec<Operation>,
    edits: Vec<Edit>,
}

impl Author {
    /// One who did so much.
    fn of(count: usize) -> Self {
        let mut author = Author {
            random: Random::new(),
            before: Vec::new(),
            behind: Vec::new(),
            clock: 0,
            operations: Vec::new(),
            edits: Vec::new(),
        };
        while author.operations.len() < count {
            author.turn();
        }
        author.operations.truncate(count);
        author.edits.truncate(count);
        author
    }

    /// A run of typing or of deletions, and then the cursor may go elsewhere.
    fn turn(&mut self) {
        match self.random.below(100) {
            0..=61 => self.run(14, Author::insert),
            62..=91 => self.run(8, |author| author.delete(|author| author.before.pop())),
            _ => self.run(6, |author| author.delete(|author| author.behind.pop())),
        }
        match self.random.below(100) {
            0..=44 => {}
            45..=79 => self.go_near(),
            80..=91 => self.go_to(self.before.len() + self.behind.len()),
            _ => {
                let place = self.random.below(self.before.len() + self.behind.len() + 1);
                self.go_to(place);
            }
        }
    }

    /// Does something so many times on average.
    fn run(&mut self, mean: u64, step: fn(&mut Author)) {
        loop {
            step(self);
            if self.random.once_in(mean) {
                break;
            }
        }
    }

    fn insert(&mut self) {
        self.clock += 1;
        let id = Id {
            counter: self.clock,
            replica: 1,
        };
        let parent = self.before.last().copied().unwrap_or(ROOT);
        let char = self.random.character();
        self.operations.push(Operation::Insert { id, parent, char });
        self.note(Some(char));
        self.before.push(id);
    }

    fn delete(&mut self, take: fn(&mut Author) -> Option<Id>) {
        if let Some(id) = take(self) {
            self.operations.push(Operation::Delete { id });
            self.note(None);
        }
    }

    /// Notes an edit where the cursor is.
    fn note(&mut self, inserted: Option<char>) {
        let place = self.before.len();
        self.edits.push(Edit { place, inserted });
    }

    /// The cursor goes at most 200 characters away.
    fn go_near(&mut self) {
        let place = self.before.len() + self.random.below(401);
        self.go_to(place.saturating_sub(200));
    }

    /// The cursor goes after so many characters, or to the end.
    fn go_to(&mut self, place: usize) {
        while self.before.len() > place {
            self.behind.extend(self.before.pop());
        }
        while self.before.len() < place && !self.behind.is_empty() {
            self.before.extend(self.behind.pop());
        }
    }
}

fn typing(count: usize) -> Vec<Operation> {
    let mut typing = Typing::new();
    while typing.operations.len() < count {
        typing.round();
    }
    typing.operations.truncate(count);
    typing.operations
}

fn chain(count: usize) -> Vec<Operation> {
    let mut random = Random::new();
    let mut parent = ROOT;
    let mut operations = Vec::with_capacity(count);
    for _ in 0..count {
        let id = Id {
            counter: parent.counter + 1,
            replica: 1,
        };
        let char = random.character();
        operations.push(Operation::Insert { id, parent, char });
        parent = id;
    }
    operations
}

fn siblings(count: usize) -> Vec<Operation> {
    let mut random = Random::new();
    let ids = (1..=count as u64).map(|counter| Id {
        counter,
        replica: 1,
    });
    ids.map(|id| Operation::Insert {
        id,
        parent: ROOT,
        char: random.character(),
    })
    .collect()
}

fn reversed(mut operations: Vec<Operation>) -> Vec<Operation> {
    operations.reverse();
    operations
}

fn shuffled(mut operations: Vec<Operation>) -> Vec<Operation> {
    let mut random = Random::new();
    for left in (1..operations.len()).rev() {
        operations.swap(left, random.below(left + 1));
    }
    operations
}

fn operations_of(shape: &str, count: usize) -> Option<Vec<Operation>> {
    match shape {
        "typing" => Some(typing(count)),
        "shuffled" => Some(shuffled(typing(count))),
        "chain" => Some(chain(count)),
        "waiting" => Some(reversed(chain(count))),
        "siblings-rising" => Some(siblings(count)),
        "siblings-falling" => Some(reversed(siblings(count))),
        "author" => Some(Author::of(count).operations),
        _ => None,
    }
}

/// How each line is spelled.
#[derive(Clone, Copy)]
enum Spelling {
    Usual,
    Loose,
    Numbered,
}

/// What is to be written.
enum Asked {
    Operations(Vec<Operation>, Spelling),
    Edits(Vec<Edit>),
}

fn asked() -> Option<Asked> {
    let words: Vec<String> = env::args().skip(1).collect();
    let words: Vec<&str> = words.iter().map(String::as_str).collect();
    let (shape, count, spelling) = match words.as_slice() {
        ["author", count, "edits"] => {
            return Some(Asked::Edits(Author::of(count.parse().ok()?).edits));
        }
        [shape, count] => (shape, count, Spelling::Usual),
        [shape, count, "loose"] => (shape, count, Spelling::Loose),
        [shape, count, "numbered"] => (shape, count, Spelling::Numbered),
        _ => return None,
    };
    let operations = operations_of(shape, count.parse().ok()?)?;
    Some(Asked::Operations(operations, spelling))
}

fn write_operations(
    operations: &[Operation],
    spelling: Spelling,
    output: &mut impl Write,
) -> io::Result<()> {
    for operation in operations {
        match spelling {
            Spelling::Usual => writeln!(output, "{operation}")?,
            Spelling::Loose => writeln!(output, "{}", Loose(operation))?,
            Spelling::Numbered => writeln!(output, "{}", Numbered(operation))?,
        }
    }
    Ok(())
}

fn write(asked: Asked) -> io::Result<()> {
    let mut output = BufWriter::new(io::stdout().lock());
    match asked {
        Asked::Operations(operations, spelling) => {
            write_operations(&operations, spelling, &mut output)?;
        }
        Asked::Edits(edits) => {
            for edit in edits {
                writeln!(output, "{edit}")?;
            }
        }
    }
    output.flush()
}

fn main() -> ExitCode {
    let Some(asked) = asked() else {
        eprintln!("{USAGE}");
        return ExitCode::from(2);
    };
    match write(asked) {
        Ok(()) => ExitCode::SUCCESS,
        Err(error) => {
            eprintln!("generate: {error}");
            ExitCode::FAILURE
        }
    }
}

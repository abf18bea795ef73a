//! The job of `mgr show` in plain Rust with its standard library alone, to measure mgr against. It reads exactly the
//! lines that `generate` writes. Elements stand in pages, each of so many counters of one replica, which a table
//! finds: nothing is hashed or searched. What is only named so far is an element without a character. Children are
//! linked as they come, and sorted at the end if they did not come rising. Nothing of it is proved, and where memory
//! is refused it aborts.

use std::collections::BTreeMap;
use std::io::{self, Read, Write};
use std::process;

/// The bytes that are asked for at once. A line has fewer than `LONGEST`.
const BLOCK: usize = 1 << 17;
const LONGEST: usize = 160;
/// The counters of a page.
const PAGE: u64 = 64;
/// Pages from this number on are found by a map, since a table up to them could be too long.
const TABLE: u64 = 1 << 24;
/// The greatest counter of an identifier, and the most digits of a number.
const MAX_COUNTER: u64 = (1 << 53) - 1;
const DIGITS: usize = 16;

/// In place of an element or a page, where there is none.
const NONE: u32 = u32::MAX;

/// What the state of an element says beside its character.
const INSERTED: u32 = 1 << 31;
const DELETED: u32 = 1 << 30;
const UNSORTED: u32 = 1 << 29;
const CHARACTER: u32 = UNSORTED - 1;

#[derive(Clone, Copy, PartialEq, Eq, PartialOrd, Ord)]
struct Id {
    counter: u64,
    replica: u16,
}

const ROOT: Id = Id {
    counter: 0,
    replica: 0,
};

enum Operation {
    Insert { id: Id, parent: Id, char: char },
    Delete { id: Id },
}

/// What is left of the bytes that were read.
struct Lines<'a> {
    left: &'a [u8],
}

impl Lines<'_> {
    /// The operation of the next line, up to its newline.
    #[inline(always)]
    fn operation(&mut self) -> Option<Operation> {
        if self.left.starts_with(b"{\"c") {
            return self.insertion();
        }
        self.text(b"{\"id\":[")?;
        let id = self.id()?;
        self.text(b"],\"op\":\"del\"}")?;
        Some(Operation::Delete { id })
    }

    #[inline(always)]
    fn insertion(&mut self) -> Option<Operation> {
        self.text(b"{\"char\":\"")?;
        let char = self.char()?;
        self.text(b"\",\"id\":[")?;
        let id = self.id()?;
        self.text(b"],\"op\":\"ins\",\"parent\":[")?;
        let parent = self.id()?;
        self.text(b"]}")?;
        Some(Operation::Insert { id, parent, char })
    }

    #[inline(always)]
    fn text<const N: usize>(&mut self, text: &[u8; N]) -> Option<()> {
        self.left = self.left.strip_prefix(text)?;
        Some(())
    }

    #[inline(always)]
    fn id(&mut self) -> Option<Id> {
        let counter = self.number()?;
        self.text(b",")?;
        let replica = u16::try_from(self.number()?).ok()?;
        (counter <= MAX_COUNTER).then_some(Id { counter, replica })
    }

    #[inline(always)]
    fn number(&mut self) -> Option<u64> {
        let (mut number, mut digits) = (0, 0);
        while let Some(digit) = self.left.get(digits).map(|byte| byte.wrapping_sub(b'0')) {
            if digit > 9 {
                break;
            }
            number = number * 10 + u64::from(digit);
            digits += 1;
            if digits > DIGITS {
                return None;
            }
        }
        self.left = &self.left[digits..];
        (digits > 0).then_some(number)
    }

    #[inline(always)]
    fn char(&mut self) -> Option<char> {
        let (&first, left) = self.left.split_first()?;
        match first {
            b'\\' => self.escaped(),
            b'"' | 0..=0x1f => None,
            0x20..=0x7f => {
                self.left = left;
                Some(char::from(first))
            }
            _ => self.wide(first),
        }
    }

    fn escaped(&mut self) -> Option<char> {
        let char = match self.left.get(1)? {
            b'"' => '"',
            b'\\' => '\\',
            b'n' => '\n',
            b't' => '\t',
            _ => return None,
        };
        self.left = &self.left[2..];
        Some(char)
    }

    /// A character of more than one byte of UTF-8, of which this is the first.
    fn wide(&mut self, first: u8) -> Option<char> {
        let length = match first {
            0x80..=0xdf => 2,
            0xe0..=0xef => 3,
            _ => 4,
        };
        let (bytes, left) = self.left.split_at_checked(length)?;
        self.left = left;
        std::str::from_utf8(bytes).ok()?.chars().next()
    }
}

/// An element that an operation named, and its neighbours by their places among all.
#[derive(Clone, Copy)]
struct Element {
    state: u32,
    parent: u32,
    first_child: u32,
    next_sibling: u32,
}

const NAMED: Element = Element {
    state: 0,
    parent: NONE,
    first_child: NONE,
    next_sibling: NONE,
};

#[derive(Default)]
struct Text {
    elements: Vec<Element>,
    /// The first identifier of each page, in the order of their elements.
    begins: Vec<Id>,
    /// For each replica the places at which its pages begin, by their numbers.
    tables: Vec<Vec<u32>>,
    beyond: BTreeMap<(u16, u64), u32>,
}

impl Text {
    /// The place of an element, which is made if nothing named it before.
    #[inline(always)]
    fn place(&mut self, id: Id) -> u32 {
        let page = id.counter / PAGE;
        let table = self.tables.get(usize::from(id.replica));
        let begin = match table.and_then(|table| table.get(page as usize)) {
            Some(&begin) if begin != NONE => begin,
            _ => self.page(id.replica, page),
        };
        begin + (id.counter % PAGE) as u32
    }

    /// The place at which a page begins that no table has yet.
    #[cold]
    fn page(&mut self, replica: u16, page: u64) -> u32 {
        if let Some(&begin) = self.beyond.get(&(replica, page)) {
            return begin;
        }
        let begin = self.elements.len() as u32;
        self.elements
            .resize(self.elements.len() + PAGE as usize, NAMED);
        let counter = page * PAGE;
        self.begins.push(Id { counter, replica });
        if page >= TABLE {
            self.beyond.insert((replica, page), begin);
            return begin;
        }
        let (row, page) = (usize::from(replica), page as usize);
        if self.tables.len() <= row {
            self.tables.resize(row + 1, Vec::new());
        }
        let table = &mut self.tables[row];
        if table.len() <= page {
            table.resize((page + 1).max(2 * table.len()), NONE);
        }
        table[page] = begin;
        begin
    }

    fn id(&self, place: u32) -> Id {
        let begin = self.begins[place as usize / PAGE as usize];
        let counter = begin.counter + u64::from(place) % PAGE;
        Id { counter, ..begin }
    }

    /// Takes an operation. `None` if its element does not stand after its parent, or was inserted otherwise before.
    #[inline(always)]
    fn take(&mut self, operation: Operation) -> Option<()> {
        match operation {
            Operation::Insert { id, parent, char } => self.insert(id, parent, char),
            Operation::Delete { id } => {
                let place = self.place(id);
                self.elements[place as usize].state |= DELETED;
                Some(())
            }
        }
    }

    #[inline(always)]
    fn insert(&mut self, id: Id, parent: Id, char: char) -> Option<()> {
        if id.counter <= parent.counter {
            return None;
        }
        let (above, place) = (self.place(parent), self.place(id));
        let state = u32::from(char) | INSERTED;
        let element = &mut self.elements[place as usize];
        if element.state & INSERTED != 0 {
            let is_same =
                element.parent == above && element.state & (CHARACTER | INSERTED) == state;
            return is_same.then_some(());
        }
        element.state |= state;
        element.parent = above;
        self.link(above, place, id);
        Some(())
    }

    /// Makes an element the first child of its parent.
    #[inline(always)]
    fn link(&mut self, parent: u32, place: u32, id: Id) {
        let first = self.elements[parent as usize].first_child;
        if first != NONE && self.id(first) > id {
            self.elements[parent as usize].state |= UNSORTED;
        }
        self.elements[place as usize].next_sibling = first;
        self.elements[parent as usize].first_child = place;
    }

    /// Has all children stand by falling identifiers.
    fn sort(&mut self) {
        let mut children = Vec::new();
        for parent in 0..self.elements.len() {
            if self.elements[parent].state & UNSORTED != 0 {
                self.sort_children(parent, &mut children);
            }
        }
    }

    fn sort_children(&mut self, parent: usize, children: &mut Vec<u32>) {
        children.clear();
        let mut next = self.elements[parent].first_child;
        while next != NONE {
            children.push(next);
            next = self.elements[next as usize].next_sibling;
        }
        children.sort_unstable_by_key(|&place| self.id(place));
        for &place in children.iter() {
            self.elements[place as usize].next_sibling = next;
            next = place;
        }
        self.elements[parent].first_child = next;
    }

    /// What is shown: from the root on each element, and after it its children. An element that the root does not
    /// lead to still waits.
    fn shown(&self, root: u32) -> String {
        let mut shown = String::new();
        let mut waiting = vec![root];
        while let Some(mut place) = waiting.pop() {
            while place != NONE {
                let element = self.elements[place as usize];
                if element.state & DELETED == 0 {
                    shown.extend(char::from_u32(element.state & CHARACTER));
                }
                if element.next_sibling != NONE {
                    waiting.push(element.next_sibling);
                }
                place = element.first_child;
            }
        }
        shown
    }
}

/// Takes the lines of standard input, to its end.
fn read_into(text: &mut Text) -> Result<(), String> {
    let mut input = io::stdin().lock();
    let mut block = vec![0; BLOCK];
    let (mut kept, mut number) = (0, 0);
    loop {
        let count = input.read(&mut block[kept..]).map_err(said)?;
        let end = kept + count;
        // A line that may go on in the next block is kept, up to the end of all.
        let least = if count == 0 { 0 } else { LONGEST };
        let mut lines = Lines {
            left: &block[..end],
        };
        while lines.left.len() > least {
            number += 1;
            take_line(&mut lines, text).ok_or_else(|| format!("line {number} is refused"))?;
        }
        kept = lines.left.len();
        block.copy_within(end - kept..end, 0);
        if count == 0 {
            return Ok(());
        }
    }
}

/// Takes the next line. All end with a newline, but for the last one.
#[inline(always)]
fn take_line(lines: &mut Lines, text: &mut Text) -> Option<()> {
    let operation = lines.operation()?;
    if !lines.left.is_empty() {
        lines.text(b"\n")?;
    }
    text.take(operation)
}

fn said(error: io::Error) -> String {
    error.to_string()
}

fn show() -> Result<(), String> {
    let mut text = Text::default();
    let root = text.place(ROOT);
    text.elements[root as usize].state = INSERTED | DELETED;
    read_into(&mut text)?;
    text.sort();
    io::stdout()
        .write_all(text.shown(root).as_bytes())
        .map_err(said)?;
    // The system takes the memory back at once: freeing it piece by piece would only cost time.
    process::exit(0);
}

fn main() {
    if let Err(reason) = show() {
        eprintln!("paged: {reason}");
        process::exit(1);
    }
}

//! A yardstick for bench/compare, and no product: it does the same scripts by a small sequence CRDT of the fastest known kind. Text is
//! spans of characters that one site inserted in a row (YATA placement), in a treap that counts what is shown. Anybody undoes and
//! redoes anybody's edit, by generations. It keeps no contexts, gives no verdicts, refuses nothing, takes operations in causal order
//! alone, and nothing is proved of it.
//!
//!   yardstick [--tight] SCRIPT
//!
//! --tight: an insert goes directly behind the shown character before it, as cotpad's do; else behind the hidden ones after that, too.
use std::collections::{BTreeMap, HashMap};
use std::io::{BufWriter, Write};

/// No span.
const NIL: u32 = u32::MAX;

/// A character: its site, and which of that site's characters it is, from 0.
type Id = (u16, u32);
const NONE: Id = (u16::MAX, 0);

/// An insert or a delete: its site, and which of that site's it is, from 1.
type Name = (u16, u32);

/// Characters that one site inserted in a row, all shown or all hidden; and a node of the treap.
#[derive(Clone)]
struct Span {
    site: u16,
    /// How many deletes in force hide them.
    deletes: u16,
    undone: bool,
    /// Which of the site's characters is the first of them.
    first: u32,
    count: u32,
    /// The neighbours that the first of them had when it was inserted.
    before: Id,
    behind: Id,
    left: u32,
    right: u32,
    parent: u32,
    priority: u32,
    /// How many characters are shown here and below.
    total: u32,
}

impl Span {
    fn is_shown(&self) -> bool {
        !self.undone && self.deletes == 0
    }

    fn shown(&self) -> u32 {
        if self.is_shown() {
            self.count
        } else {
            0
        }
    }
}

#[derive(Clone, Copy)]
enum Message {
    Insert {
        site: u16,
        number: u32,
        first: u32,
        before: Id,
        behind: Id,
        character: u32,
    },
    Delete {
        site: u16,
        number: u32,
        character: Id,
    },
    Undo {
        name: Name,
        generation: u16,
    },
}

/// What an insert or a delete was of.
#[derive(Clone, Copy)]
enum Original {
    Insert(u32),
    Delete(Id),
}

struct Document {
    site: u16,
    tight: bool,
    spans: Vec<Span>,
    root: u32,
    /// For each site its spans, by their first characters.
    by_first: Vec<BTreeMap<u32, u32>>,
    characters: Vec<Vec<u32>>,
    originals: Vec<Vec<Original>>,
    generations: HashMap<Name, u16>,
    random: u32,
    /// The span that was found last by a shown place, and the place of its first character.
    found: (u32, u32),
}

// ---- the treap

impl Document {
    fn new(site: u16, sites: usize, tight: bool) -> Document {
        Document {
            site,
            tight,
            spans: vec![],
            root: NIL,
            by_first: vec![BTreeMap::new(); sites],
            characters: vec![vec![]; sites],
            originals: vec![vec![]; sites],
            generations: HashMap::new(),
            random: 2463534242,
            found: (NIL, 0),
        }
    }

    fn span(&self, i: u32) -> &Span {
        &self.spans[i as usize]
    }

    fn span_mut(&mut self, i: u32) -> &mut Span {
        &mut self.spans[i as usize]
    }

    fn total(&self, i: u32) -> u32 {
        if i == NIL {
            0
        } else {
            self.span(i).total
        }
    }

    fn count_again(&mut self, i: u32) {
        let (left, right) = (self.span(i).left, self.span(i).right);
        self.span_mut(i).total = self.total(left) + self.total(right) + self.span(i).shown();
    }

    /// Adds to the totals from a span up.
    fn add(&mut self, mut i: u32, change: i64) {
        if change == 0 {
            return;
        }
        while i != NIL {
            let span = self.span_mut(i);
            span.total = (span.total as i64 + change) as u32;
            i = span.parent;
        }
    }

    fn rotate_up(&mut self, i: u32) {
        let parent = self.span(i).parent;
        let above = self.span(parent).parent;
        if self.span(parent).left == i {
            let between = self.span(i).right;
            self.span_mut(parent).left = between;
            if between != NIL {
                self.span_mut(between).parent = parent;
            }
            self.span_mut(i).right = parent;
        } else {
            let between = self.span(i).left;
            self.span_mut(parent).right = between;
            if between != NIL {
                self.span_mut(between).parent = parent;
            }
            self.span_mut(i).left = parent;
        }
        self.span_mut(parent).parent = i;
        self.span_mut(i).parent = above;
        if above == NIL {
            self.root = i;
        } else if self.span(above).left == parent {
            self.span_mut(above).left = i;
        } else {
            self.span_mut(above).right = i;
        }
        self.count_again(parent);
        self.count_again(i);
    }

    fn leftmost(&self, mut i: u32) -> u32 {
        while self.span(i).left != NIL {
            i = self.span(i).left;
        }
        i
    }

    fn first(&self) -> u32 {
        if self.root == NIL {
            NIL
        } else {
            self.leftmost(self.root)
        }
    }

    fn next(&self, i: u32) -> u32 {
        if self.span(i).right != NIL {
            return self.leftmost(self.span(i).right);
        }
        let (mut below, mut above) = (i, self.span(i).parent);
        while above != NIL && self.span(above).right == below {
            (below, above) = (above, self.span(above).parent);
        }
        above
    }

    fn draw(&mut self) -> u32 {
        self.random ^= self.random << 13;
        self.random ^= self.random >> 17;
        self.random ^= self.random << 5;
        self.random
    }

    /// Puts a span behind another one, or in front of all.
    fn put_behind(&mut self, at: u32, mut span: Span) -> u32 {
        span.left = NIL;
        span.right = NIL;
        span.priority = self.draw();
        span.total = 0;
        let (shown, i) = (span.shown() as i64, self.spans.len() as u32);
        self.by_first[span.site as usize].insert(span.first, i);
        let goes_right = at != NIL && self.span(at).right == NIL;
        let parent = if goes_right || self.root == NIL {
            at
        } else if at == NIL {
            self.first()
        } else {
            self.next(at)
        };
        span.parent = parent;
        self.spans.push(span);
        if parent == NIL {
            self.root = i;
        } else if goes_right {
            self.span_mut(parent).right = i;
        } else {
            self.span_mut(parent).left = i;
        }
        self.add(i, shown);
        while self.span(i).parent != NIL
            && self.span(self.span(i).parent).priority < self.span(i).priority
        {
            self.rotate_up(i);
        }
        i
    }
}

// ---- spans and their characters

impl Document {
    /// The span that has a character.
    fn span_of(&self, id: Id) -> u32 {
        *self.by_first[id.0 as usize]
            .range(..=id.1)
            .next_back()
            .unwrap()
            .1
    }

    /// Leaves the first characters in a span, and puts the others into a new one behind it.
    fn split(&mut self, i: u32, count: u32) -> u32 {
        let mut behind = self.span(i).clone();
        behind.first += count;
        behind.count -= count;
        behind.before = (behind.site, behind.first - 1);
        let gone = behind.shown() as i64;
        self.span_mut(i).count = count;
        self.add(i, -gone);
        self.put_behind(i, behind)
    }

    /// The span of a shown place, and the place in it.
    fn find(&mut self, place: u32) -> (u32, u32) {
        let (last, start) = self.found;
        if last != NIL && place >= start && place < start + self.span(last).shown() {
            return (last, place - start);
        }
        let (mut i, mut left) = (self.root, place);
        loop {
            let below = self.total(self.span(i).left);
            if left < below {
                i = self.span(i).left;
                continue;
            }
            left -= below;
            let shown = self.span(i).shown();
            if left < shown {
                self.found = (i, place - left);
                return (i, left);
            }
            left -= shown;
            i = self.span(i).right;
        }
    }

    /// The span behind a character of a span, which is split there.
    fn cut_behind(&mut self, i: u32, within: u32) -> u32 {
        if within + 1 < self.span(i).count {
            self.split(i, within + 1)
        } else {
            self.next(i)
        }
    }

    /// Puts a character behind a span, into it where it goes on there.
    fn put(&mut self, left: u32, id: Id, before: Id, behind: Id, character: u32) {
        let (site, first) = id;
        self.characters[site as usize].push(character);
        if left != NIL && before == (site, first.wrapping_sub(1)) {
            let it = self.span(left);
            if it.site == site
                && it.first + it.count == first
                && it.behind == behind
                && it.is_shown()
            {
                self.span_mut(left).count += 1;
                self.add(left, 1);
                if self.found.0 != left {
                    self.found.0 = NIL;
                }
                return;
            }
        }
        self.found.0 = NIL;
        let span = Span {
            site,
            deletes: 0,
            undone: false,
            first,
            count: 1,
            before,
            behind,
            left: NIL,
            right: NIL,
            parent: NIL,
            priority: 0,
            total: 0,
        };
        self.put_behind(left, span);
    }

    /// Changes what hides a character, which gets a span of its own.
    fn change(&mut self, id: Id, change: impl Fn(&mut Span)) {
        let mut i = self.span_of(id);
        let within = id.1 - self.span(i).first;
        if within > 0 {
            i = self.split(i, within);
        }
        if self.span(i).count > 1 {
            self.split(i, 1);
        }
        let before = self.span(i).shown() as i64;
        change(self.span_mut(i));
        self.add(i, self.span(i).shown() as i64 - before);
        self.found.0 = NIL;
    }
}

// ---- operations

impl Document {
    fn note(&mut self, site: u16, original: Original) -> u32 {
        let originals = &mut self.originals[site as usize];
        originals.push(original);
        originals.len() as u32
    }

    fn insert(&mut self, place: u32, character: u32) -> Message {
        let site = self.site;
        let first = self.characters[site as usize].len() as u32;
        let (mut left, mut right) = if place > 0 {
            let (i, within) = self.find(place - 1);
            (i, self.cut_behind(i, within))
        } else {
            (NIL, self.first())
        };
        while !self.tight && right != NIL && !self.span(right).is_shown() {
            left = right;
            right = self.next(right);
        }
        let last_of = |it: &Span| (it.site, it.first + it.count - 1);
        let before = if left == NIL {
            NONE
        } else {
            last_of(self.span(left))
        };
        let behind = if right == NIL {
            NONE
        } else {
            (self.span(right).site, self.span(right).first)
        };
        self.put(left, (site, first), before, behind, character);
        let number = self.note(site, Original::Insert(first));
        Message::Insert {
            site,
            number,
            first,
            before,
            behind,
            character,
        }
    }

    fn delete(&mut self, place: u32) -> Message {
        let (i, within) = self.find(place);
        let (site, character) = (self.site, (self.span(i).site, self.span(i).first + within));
        self.change(character, |it| it.deletes += 1);
        let number = self.note(site, Original::Delete(character));
        Message::Delete {
            site,
            number,
            character,
        }
    }

    fn generation(&self, name: Name) -> u16 {
        *self.generations.get(&name).unwrap_or(&0)
    }

    fn raise(&mut self, name: Name, generation: u16) {
        let old = self.generation(name);
        if generation <= old {
            return;
        }
        self.generations.insert(name, generation);
        let undone = generation & 1 == 1;
        if (old & 1 == 1) == undone {
            return;
        }
        match self.originals[name.0 as usize][name.1 as usize - 1] {
            Original::Insert(first) => self.change((name.0, first), |it| it.undone = undone),
            Original::Delete(character) if undone => self.change(character, |it| it.deletes -= 1),
            Original::Delete(character) => self.change(character, |it| it.deletes += 1),
        }
    }

    fn has(&self, site: u16, number: u32) -> bool {
        self.originals[site as usize].len() as u32 >= number
    }

    fn take(&mut self, message: &Message) {
        match *message {
            Message::Undo { name, generation } => self.raise(name, generation),
            Message::Delete {
                site,
                number,
                character,
            } => {
                if !self.has(site, number) {
                    self.note(site, Original::Delete(character));
                    self.change(character, |it| it.deletes += 1);
                }
            }
            Message::Insert {
                site,
                number,
                first,
                before,
                behind,
                character,
            } => {
                if !self.has(site, number) {
                    self.note(site, Original::Insert(first));
                    let left = self.place_between(site, before, behind);
                    self.put(left, (site, first), before, behind, character);
                    self.found.0 = NIL;
                }
            }
        }
    }

    /// The span behind which an insert goes, among those that others put between its neighbours (YATA).
    fn place_between(&mut self, site: u16, before: Id, behind: Id) -> u32 {
        let (mut left, mut right) = (NIL, NIL);
        if before != NONE {
            left = self.span_of(before);
            let count = before.1 - self.span(left).first + 1;
            if count < self.span(left).count {
                self.split(left, count);
                self.found.0 = NIL;
            }
        }
        if behind != NONE {
            right = self.span_of(behind);
            let count = behind.1 - self.span(right).first;
            if count > 0 {
                right = self.split(right, count);
                self.found.0 = NIL;
            }
        }
        let mut i = if left == NIL {
            self.first()
        } else {
            self.next(left)
        };
        let (mut passed, mut in_conflict) = (vec![], vec![]);
        while i != NIL && i != right {
            passed.push(i);
            in_conflict.push(i);
            let it = self.span(i);
            if it.before == before {
                if it.site < site {
                    left = i;
                    in_conflict.clear();
                } else if it.behind == behind {
                    break;
                }
            } else if it.before != NONE && passed.contains(&self.span_of(it.before)) {
                if !in_conflict.contains(&self.span_of(it.before)) {
                    left = i;
                    in_conflict.clear();
                }
            } else {
                break;
            }
            i = self.next(i);
        }
        left
    }

    fn text(&self) -> String {
        let (mut text, mut i) = (String::new(), self.first());
        while i != NIL {
            let it = self.span(i);
            if it.is_shown() {
                let of_site = &self.characters[it.site as usize];
                let codes = &of_site[it.first as usize..(it.first + it.count) as usize];
                text.extend(codes.iter().map(|code| char::from_u32(*code).unwrap()));
            }
            i = self.next(i);
        }
        text
    }
}

// ---- scripts

struct Session {
    documents: Vec<Document>,
    messages: Vec<(u16, Message)>,
    /// How many messages each site has taken.
    taken: Vec<usize>,
}

impl Session {
    fn new(sites: usize, tight: bool) -> Session {
        Session {
            documents: (0..sites)
                .map(|site| Document::new(site as u16, sites, tight))
                .collect(),
            messages: vec![],
            taken: vec![0; sites],
        }
    }

    fn send(&mut self, site: usize, message: Message) {
        if self.documents.len() > 1 {
            self.messages.push((site as u16, message));
        }
    }

    fn insert(&mut self, site: usize, place: u32, character: u32) {
        let message = self.documents[site].insert(place, character);
        self.send(site, message);
    }

    fn delete(&mut self, site: usize, place: u32) {
        let message = self.documents[site].delete(place);
        self.send(site, message);
    }

    fn undo_or_redo(&mut self, site: usize, name: Name, undo: bool) -> bool {
        let generation = self.documents[site].generation(name) + 1;
        if (generation & 1 == 1) != undo {
            return false;
        }
        self.documents[site].raise(name, generation);
        self.send(site, Message::Undo { name, generation });
        true
    }

    fn sync(&mut self) {
        for (site, document) in self.documents.iter_mut().enumerate() {
            for (author, message) in &self.messages[self.taken[site]..] {
                if *author as usize != site {
                    document.take(message);
                }
            }
            self.taken[site] = self.messages.len();
        }
    }

    /// Does a line of a script; None if the yardstick doesn't know such a line, or it can't be done.
    fn step(&mut self, line: &str, tight: bool, out: &mut impl Write) -> Option<()> {
        let mut words = line.splitn(4, ' ');
        let word = words.next()?;
        let site: usize = words.next().map_or(Some(0), |it| it.parse().ok())?;
        match word {
            "sites" => *self = Session::new(site, tight),
            "ins" => {
                let place: u32 = words.next()?.parse().ok()?;
                for (place, character) in (place..).zip(words.next()?.chars()) {
                    self.insert(site, place, character as u32);
                }
            }
            "nl" => self.insert(site, words.next()?.parse().ok()?, '\n' as u32),
            "del" => self.delete(site, words.next()?.parse().ok()?),
            "undo" | "redo" => {
                let (author, number) = words.next()?.split_once('.')?;
                let name = (author.parse().ok()?, number.parse().ok()?);
                return self.undo_or_redo(site, name, word == "undo").then_some(());
            }
            "sync" => self.sync(),
            "show" => {
                let text = self.documents[site].text();
                writeln!(
                    out,
                    "text {} {}\n{}",
                    text.chars().count(),
                    text.len(),
                    text
                )
                .ok()?;
            }
            _ => return None,
        }
        Some(())
    }
}

fn main() {
    let words: Vec<String> = std::env::args().skip(1).collect();
    let tight = words.iter().any(|it| it == "--tight");
    let Some(path) = words.iter().find(|it| !it.starts_with("--")) else {
        eprintln!("yardstick [--tight] SCRIPT");
        std::process::exit(2);
    };
    let script = std::fs::read_to_string(path).unwrap();
    let (mut session, mut out) = (Session::new(0, tight), BufWriter::new(std::io::stdout()));
    for line in script
        .split('\n')
        .filter(|it| !it.is_empty() && !it.starts_with('#'))
    {
        if session.step(line, tight, &mut out).is_none() {
            eprintln!("the yardstick can't do the line {line}");
            std::process::exit(2);
        }
    }
}

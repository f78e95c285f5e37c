//! The script language over a design: as much of it as the measurements ask, without its limits and most of its refusals.

use crate::rows::{Answer, Change, Kind, Op, Past, Question, Row};
use std::collections::{BTreeSet, HashMap, VecDeque};
use std::io::Write;

pub type Make = fn(Kind) -> Box<dyn Past>;

/// An edit of the list of rows.
#[derive(Clone, Copy)]
struct Edit {
    adds: bool,
    place: usize,
    row: Row,
}

const KEPT_STEPS: usize = 1_024;

struct Timeline {
    kind: Kind,
    past: Box<dyn Past>,
    next: u32,
    done: VecDeque<Vec<Edit>>,
    undone: Vec<Vec<Edit>>,
}

/// A block that is being read: its name, its timeline, and whether a row could not be performed.
struct Block {
    name: String,
    timeline: Timeline,
    told: Vec<u8>,
    is_bad: bool,
}

pub struct Script {
    make: Make,
    timelines: HashMap<String, Timeline>,
    block: Option<Block>,
}

type Words<'a> = std::str::SplitAsciiWhitespace<'a>;

const KINDS: [(&str, Kind); 6] = [
    ("queue", Kind::Queue),
    ("stack", Kind::Stack),
    ("deque", Kind::Deque),
    ("dict", Kind::Dict),
    ("pq", Kind::Pq),
    ("pqf", Kind::Pqf),
];

fn kind_of(word: &str) -> Option<Kind> {
    KINDS
        .iter()
        .find(|(name, _)| *name == word)
        .map(|(_, kind)| *kind)
}

fn number_of(word: &str) -> Option<u32> {
    word.strip_prefix('#')?.parse().ok()
}

fn op_of(words: &mut Words) -> Option<Op> {
    let word = words.next()?;
    let mut value = || words.next()?.parse().ok();
    Some(match word {
        "enq" | "pushr" => Op::AddRight(value()?),
        "push" | "pushl" => Op::AddLeft(value()?),
        "deq" | "pop" | "popl" => Op::TakeLeft,
        "popr" => Op::TakeRight,
        "put" => Op::Put {
            key: value()?,
            value: value()?,
        },
        "del" => Op::Del { key: value()? },
        "ins" => Op::Ins { key: value()? },
        "delmin" => Op::DelMin,
        _ => return None,
    })
}

fn question_of(word: &str, words: &mut Words) -> Option<Question> {
    let mut value = || words.next()?.parse::<i64>().ok();
    Some(match word {
        "size" => Question::Size,
        "front" | "top" | "left" | "min" => Question::Nth(0),
        "nth" => Question::Nth(value()? as u64),
        "back" | "right" => Question::Right,
        "get" => Question::Get(value()?),
        "succ" => Question::Succ(value()?),
        "pred" => Question::Pred(value()?),
        "count" => Question::Count(value()?, value()?),
        "sum" => Question::Sum(value()?, value()?),
        _ => return None,
    })
}

fn print_op(kind: Kind, op: Op, out: &mut Vec<u8>) {
    match (kind, op) {
        (Kind::Queue, Op::AddRight(value)) => write!(out, "enq {value}"),
        (Kind::Queue, _) => write!(out, "deq"),
        (Kind::Stack, Op::AddLeft(value)) => write!(out, "push {value}"),
        (Kind::Stack, _) => write!(out, "pop"),
        (_, Op::AddLeft(value)) => write!(out, "pushl {value}"),
        (_, Op::AddRight(value)) => write!(out, "pushr {value}"),
        (_, Op::TakeLeft) => write!(out, "popl"),
        (_, Op::TakeRight) => write!(out, "popr"),
        (_, Op::Put { key, value }) => write!(out, "put {key} {value}"),
        (_, Op::Del { key }) => write!(out, "del {key}"),
        (_, Op::Ins { key }) => write!(out, "ins {key}"),
        (_, Op::DelMin) => write!(out, "delmin"),
    }
    .expect("a vector takes all that is written")
}

/// Appends text to a vector.
macro_rules! say {
    ($out:expr, $($text:tt)*) => { write!($out, $($text)*).expect("a vector takes all that is written") };
}

impl Timeline {
    fn place(&self, word: &str, at: &str) -> Option<(usize, u64)> {
        if word == "at" {
            let time = at.parse().ok()?;
            return Some((self.past.place_at(time), time));
        }
        let place = self.past.place_of(number_of(at)?)?;
        Some((
            place + usize::from(word == "after"),
            self.past.row_at(place).time,
        ))
    }

    /// Makes an edit, and tells its evidence where the design knows it.
    fn make(&mut self, name: &str, edit: Edit, out: &mut Vec<u8>) -> bool {
        let change = if edit.adds {
            self.past.insert(edit.place, edit.row)
        } else {
            self.past.remove(edit.place)
        };
        self.tell(name, edit, change, out)
    }

    /// Makes a row of a block, and tells its evidence.
    fn append(&mut self, name: &str, row: Row, out: &mut Vec<u8>) {
        let place = self.past.len();
        let change = self.past.append(row);
        let edit = Edit {
            adds: true,
            place,
            row,
        };
        self.tell(name, edit, change, out);
    }

    fn tell(&self, name: &str, edit: Edit, change: Option<Change>, out: &mut Vec<u8>) -> bool {
        let Some(Change {
            bridge,
            entry,
            gained,
        }) = change
        else {
            return false;
        };
        say!(
            out,
            "edit {name} {} {} #{} ",
            if edit.adds { "add" } else { "cut" },
            edit.place,
            edit.row.number
        );
        print_op(self.kind, edit.row.op, out);
        match bridge {
            Some(bridge) => say!(out, " bridge {bridge}"),
            None => say!(out, " bridge none"),
        }
        say!(
            out,
            " {} #{} {}\n",
            if gained { "gain" } else { "lose" },
            entry.1,
            entry.0
        );
        true
    }

    fn failure(&self, edit: Edit) -> Option<usize> {
        if edit.adds {
            self.past.failure_after_insert(edit.place, edit.row.op)
        } else {
            self.past.failure_after_remove(edit.place)
        }
    }

    /// The row at an index of the rows after an edit.
    fn row_after(&self, edit: Edit, index: usize) -> Row {
        match (edit.adds, index.cmp(&edit.place)) {
            (true, std::cmp::Ordering::Equal) => edit.row,
            (true, std::cmp::Ordering::Greater) => self.past.row_at(index - 1),
            (false, std::cmp::Ordering::Equal | std::cmp::Ordering::Greater) => {
                self.past.row_at(index + 1)
            }
            _ => self.past.row_at(index),
        }
    }

    /// Makes a step of one edit or two, of which the first is never refused where there are two.
    fn step(&mut self, name: &str, edits: Vec<Edit>, out: &mut Vec<u8>) {
        let mark = out.len();
        let mut told = false;
        for (at, edit) in edits.iter().enumerate() {
            if let Some(index) = self.failure(*edit) {
                let row = self.row_after(*edit, index);
                if at > 0 {
                    let first = edits[0];
                    self.make(
                        name,
                        Edit {
                            adds: !first.adds,
                            ..first
                        },
                        out,
                    );
                }
                out.truncate(mark);
                say!(out, "refused at #{} {}\n", row.number, row.time);
                return;
            }
            told |= self.make(name, *edit, out);
        }
        let added = edits
            .iter()
            .find(|edit| edit.adds)
            .map(|edit| edit.row.number);
        if let Some(number) = added {
            self.next = number + 1;
        }
        match (told, added) {
            (true, _) => {}
            (_, Some(number)) => say!(out, "ok #{number}\n"),
            _ => say!(out, "ok\n"),
        }
        if self.done.len() == KEPT_STEPS {
            self.done.pop_front();
        }
        self.done.push_back(edits);
        self.undone.clear();
    }

    fn add(&self, place: usize, time: u64, op: Op) -> Edit {
        Edit {
            adds: true,
            place,
            row: Row {
                number: self.next,
                time,
                op,
            },
        }
    }

    fn cut(&self, place: usize) -> Edit {
        Edit {
            adds: false,
            place,
            row: self.past.row_at(place),
        }
    }

    fn move_to(&self, number: u32, time: u64) -> Option<Vec<Edit>> {
        let place = self.past.place_of(number)?;
        let old = self.cut(place);
        let target = self.past.place_at(time);
        if old.row.op.adds() {
            let moved = place + usize::from(target <= place);
            return Some(vec![
                self.add(target, time, old.row.op),
                Edit {
                    place: moved,
                    ..old
                },
            ]);
        }
        Some(vec![
            old,
            self.add(target - usize::from(place < target), time, old.row.op),
        ])
    }

    fn back(&mut self, name: &str, is_undo: bool, out: &mut Vec<u8>) -> Option<()> {
        let edits = if is_undo {
            self.done.pop_back()?
        } else {
            self.undone.pop()?
        };
        let mut told = false;
        for index in 0..edits.len() {
            let edit = if is_undo {
                edits[edits.len() - 1 - index]
            } else {
                edits[index]
            };
            told |= self.make(
                name,
                Edit {
                    adds: edit.adds != is_undo,
                    ..edit
                },
                out,
            );
        }
        if !told {
            say!(out, "ok\n");
        }
        if is_undo {
            self.undone.push(edits);
        } else {
            self.done.push_back(edits);
        }
        Some(())
    }

    /// The row that takes out what a row puts in, by one walk of the rows.
    fn fate(&self, number: u32) -> Option<Option<Row>> {
        let place = self.past.place_of(number)?;
        let rows = self.past.rows();
        let own = rows[place];
        let (mut items, mut entries) = (VecDeque::new(), BTreeSet::new());
        for (index, row) in rows.iter().enumerate() {
            let taken = match (row.op, own.op) {
                (Op::AddLeft(_), _) => {
                    items.push_front(row.number);
                    None
                }
                (Op::AddRight(_), _) => {
                    items.push_back(row.number);
                    None
                }
                (Op::TakeLeft, _) => items.pop_front(),
                (Op::TakeRight, _) => items.pop_back(),
                (Op::Ins { key }, _) => {
                    entries.insert((key, row.number));
                    None
                }
                (Op::DelMin, _) => entries.pop_first().map(|entry| entry.1),
                (Op::Put { key, .. } | Op::Del { key }, Op::Put { key: other, .. }) => {
                    (index > place && key == other).then_some(number)
                }
                _ => None,
            };
            if taken == Some(number) {
                return Some(Some(*row));
            }
        }
        own.op.adds().then_some(None)
    }
}

impl Script {
    pub fn new(make: Make) -> Script {
        Script {
            make,
            timelines: HashMap::new(),
            block: None,
        }
    }

    fn timeline(&self, kind: Kind, next: u32) -> Timeline {
        Timeline {
            kind,
            past: (self.make)(kind),
            next,
            done: VecDeque::new(),
            undone: Vec::new(),
        }
    }

    /// Answers a line.
    pub fn line(&mut self, line: &str, out: &mut Vec<u8>) {
        let mark = out.len();
        if self.block.is_some() {
            self.block_line(line, out);
        } else if self.command(line, out).is_none() {
            out.truncate(mark);
            say!(out, "refused syntax\n");
        }
    }

    fn command(&mut self, line: &str, out: &mut Vec<u8>) -> Option<()> {
        let mut words = line.split_ascii_whitespace();
        let (first, second) = (words.next()?, words.next()?);
        match first {
            "new" => {
                let timeline = self.timeline(kind_of(words.next()?)?, 1);
                self.timelines.insert(second.to_string(), timeline);
                say!(out, "ok\n");
                return Some(());
            }
            "timeline" => {
                let kind = kind_of(words.next()?)?;
                let next = words.nth(1)?.parse().ok()?;
                self.block = Some(Block {
                    name: second.to_string(),
                    timeline: self.timeline(kind, next),
                    told: Vec::new(),
                    is_bad: false,
                });
                return Some(());
            }
            "save" => return self.save(second, out),
            _ => {}
        }
        let timeline = self.timelines.get_mut(first)?;
        match second {
            "at" | "before" | "after" => {
                let at = words.next()?;
                let op = op_of(&mut words)?;
                let (place, time) = timeline.place(second, at)?;
                timeline.step(first, vec![timeline.add(place, time, op)], out);
            }
            "delete" => {
                let place = timeline.past.place_of(number_of(words.next()?)?)?;
                timeline.step(first, vec![timeline.cut(place)], out);
            }
            "move" => {
                let edits =
                    timeline.move_to(number_of(words.next()?)?, words.nth(1)?.parse().ok()?)?;
                timeline.step(first, edits, out);
            }
            "undo" | "redo" => timeline.back(first, second == "undo", out)?,
            "fate" => match timeline.fate(number_of(words.next()?)?)? {
                Some(row) => say!(out, "= taken #{} {}\n", row.number, row.time),
                None => say!(out, "= stays\n"),
            },
            "ask" => {
                let mut word = words.next()?;
                let mut place = timeline.past.len();
                if matches!(word, "at" | "before" | "after") {
                    place = timeline.place(word, words.next()?)?.0;
                    word = words.next()?;
                }
                let answer = match question_of(word, &mut words)? {
                    Question::Count(low, high) | Question::Sum(low, high) if low > high => {
                        Answer::Number(0)
                    }
                    question => timeline.past.ask(place, question),
                };
                match answer {
                    Answer::Nothing => say!(out, "= none\n"),
                    Answer::Number(number) => say!(out, "= {number}\n"),
                    Answer::Pair(key, value) => say!(out, "= {key}:{value}\n"),
                }
            }
            _ => return None,
        }
        Some(())
    }

    fn save(&self, name: &str, out: &mut Vec<u8>) -> Option<()> {
        let timeline = self.timelines.get(name)?;
        let kind = match timeline.kind {
            Kind::Pqf => "pq",
            own => KINDS.iter().find(|(_, kind)| *kind == own)?.0,
        };
        say!(
            out,
            "timeline {name} {kind} next {} rows {}\n",
            timeline.next,
            timeline.past.len()
        );
        for row in timeline.past.rows() {
            say!(out, "#{} {} ", row.number, row.time);
            print_op(timeline.kind, row.op, out);
            out.push(b'\n');
        }
        say!(out, "end\n");
        Some(())
    }

    fn block_line(&mut self, line: &str, out: &mut Vec<u8>) {
        let Some(mut block) = self.block.take() else {
            return;
        };
        let mut words = line.split_ascii_whitespace();
        if line.trim() == "end" {
            if block.is_bad {
                say!(out, "refused row\n");
            } else {
                say!(out, "ok\n");
                out.append(&mut block.told);
                block.timeline.past.close();
                self.timelines.insert(block.name, block.timeline);
            }
            return;
        }
        let mut row = || {
            Some(Row {
                number: number_of(words.next()?)?,
                time: words.next()?.parse().ok()?,
                op: op_of(&mut words)?,
            })
        };
        match row() {
            Some(row)
                if block
                    .timeline
                    .past
                    .failure_after_insert(block.timeline.past.len(), row.op)
                    .is_none() =>
            {
                block.timeline.append(&block.name, row, &mut block.told);
            }
            _ => block.is_bad = true,
        }
        self.block = Some(block);
    }
}

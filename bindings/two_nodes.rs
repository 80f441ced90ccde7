//! Two nodes in one process: they put, exchange, give a receipt, sign a checkpoint, meet a fork and judge it. Their
//! records stay in memory.
//! usage: two_nodes ROSTER SEED1 SEED2 HEIGHT (seeds in hex)
mod depot;
use depot::{Handle, Op, Refused, judge};
use std::{env, fs};

type Done = Result<(), Refused>;

fn bytes_of(hex: &str) -> Vec<u8> {
    (0..hex.len() / 2).map(|at| u8::from_str_radix(&hex[2 * at..2 * at + 2], 16).expect("hex")).collect()
}

/// The file of a journal with all records of a node.
fn file_of(node: &mut Handle) -> Result<Vec<u8>, Refused> {
    let mut file = node.records(0)?;
    file.push(0);
    Ok(file)
}

fn node(roster: &[u8], seed: &[u8], height: u64) -> Result<Handle, Refused> {
    let mut node = Handle::new();
    node.ask(Op::Roster, 0, roster)?;
    node.ask(Op::Key, height, seed)?;
    Ok(node)
}

/// Fields of a message, read from the left.
struct Fields<'a>(&'a [u8]);

impl<'a> Fields<'a> {
    fn bytes(&mut self, count: usize) -> &'a [u8] {
        let (front, rest) = self.0.split_at(count);
        self.0 = rest;
        front
    }

    fn number(&mut self, size: usize) -> u64 {
        self.bytes(size).iter().fold(0, |n, byte| n << 8 | u64::from(*byte))
    }
}

/// The fields of the answer to a message, which is of this kind.
fn answer(node: &mut Handle, body: &[u8], kind: u8) -> Result<Vec<u8>, Refused> {
    let told = node.message(body)?;
    if told[0] == kind { Ok(told[1..].to_vec()) } else { Err(Refused(8, format!("{told:02x?}"))) }
}

/// A kind, and what follows it.
fn body(kind: u8, rest: &[u8]) -> Vec<u8> {
    [&[kind], rest].concat()
}

/// Asks for what puts an update, and gives the fields of the answer.
fn put(who: &str, node: &mut Handle, message: &[u8], kind: u8) -> Result<Vec<u8>, Refused> {
    let told = answer(node, message, kind)?;
    let mut fields = Fields(&told[32..]);
    println!("{who} put {}/{}", fields.number(4), fields.number(8));
    Ok(told)
}

/// One update: values of keys, which rise, or none, which deletes.
fn changes(of: &[(&str, Option<&str>)]) -> Vec<u8> {
    let mut bytes = vec![1, of.len() as u8];
    for (key, value) in of {
        bytes.push(key.len() as u8);
        bytes.extend(key.as_bytes());
        bytes.push(value.is_some().into());
        if let Some(value) = value {
            bytes.extend((value.len() as u32).to_be_bytes());
            bytes.extend(value.as_bytes());
        }
    }
    bytes
}

/// A check as the program prints it, of those that this one meets.
fn check(fields: &mut Fields) -> String {
    match fields.number(1) {
        11 => format!("11 Forked {}", ["SameNumber", "SamePrev", "Backward"][fields.bytes(65)[64] as usize - 1]),
        14 => {
            fields.bytes(32);
            "14 Unwanted".to_string()
        }
        other => other.to_string(),
    }
}

/// `to` asks `from` once, and says what became of it.
fn exchange(from: &mut Handle, to: &mut Handle) -> Done {
    let hello = answer(to, &[3], 3)?;
    // at most 1 MiB, any number of new vouchers, updates of all
    let bounds = [&[0, 0x10, 0, 0][..], &[0xff; 4], &[0]].concat();
    let bundle = answer(from, &body(0x21, &[bounds, hello].concat()), 4)?;
    let told = answer(to, &body(5, &bundle[17..]), 5)?;
    let mut fields = Fields(&told);
    let (new, known, ending, refused) = (fields.number(4), fields.number(4), fields.number(1), fields.number(4));
    println!("accepted {new} known {known} refused {refused} {}", if ending == 2 { "whole" } else { "otherwise" });
    for _ in 0..refused {
        println!(" refused {} {}", fields.number(4), check(&mut fields));
    }
    Ok(())
}

/// A write in the words of the program's lines: its writer, number and clock, and its value, if it has one that is held.
fn words(fields: &mut Fields) -> String {
    fields.bytes(32);
    let head = format!("{}/{}/{}", fields.number(2), fields.number(4), fields.number(8));
    match fields.number(1) {
        0 => head + "!",
        2 => {
            fields.bytes(36);
            head + "=?"
        }
        _ => {
            let length = fields.number(4) as usize;
            let value: String = fields.bytes(length).iter().map(|byte| format!("{byte:02x}")).collect();
            head + "=" + &value
        }
    }
}

fn show(node: &mut Handle, key: &str) -> Done {
    let told = answer(node, &[&[0x13, key.len() as u8], key.as_bytes()].concat(), 0x13)?;
    let mut fields = Fields(&told);
    let writes: Vec<String> = (0..fields.number(4)).map(|_| words(&mut fields)).collect();
    println!("{key} {}", writes.join(" "));
    Ok(())
}

/// Judges each proof among the records of a node.
fn judge_all(node: &mut Handle, roster: &[u8]) -> Done {
    let run = node.records(0)?;
    let mut fields = Fields(&run);
    while !fields.0.is_empty() {
        let length = fields.number(5) & 0xffff_ffff; // behind 01
        let record = fields.bytes(length as usize);
        if record[0] == 5 {
            let told = judge(roster, &record[1..]); // behind the tag of a conviction stands the proof
            println!("judged {}: node {}, kind {}", told.status, told.node, told.kind);
        }
    }
    Ok(())
}

fn main() -> Done {
    let words: Vec<String> = env::args().skip(1).collect();
    let [roster, one_seed, two_seed, height] = &words[..] else { panic!("usage: two_nodes ROSTER SEED1 SEED2 HEIGHT") };
    let roster = fs::read(roster).expect("the roster");
    let height = height.parse().expect("a height");
    let mut one = node(&roster, &bytes_of(one_seed), height)?;
    let mut two = node(&roster, &bytes_of(two_seed), height)?;
    let mut old = node(&roster, &bytes_of(one_seed), height)?;
    one.ask(Op::Start, 1, &[])?;
    two.ask(Op::Start, 2, &[])?;
    put("one", &mut one, &changes(&[("color", Some("blue"))]), 1)?;
    let green = put("two", &mut two, &changes(&[("color", Some("green"))]), 1)?;
    let id = &green[..32];
    let copy = file_of(&mut one)?;
    put("one", &mut one, &changes(&[("a", Some("1")), ("b", Some("2"))]), 1)?; // at once
    exchange(&mut one, &mut two)?;
    exchange(&mut two, &mut one)?;
    show(&mut one, "color")?; // two: neither had seen the other
    put("two", &mut two, &changes(&[("color", Some("red"))]), 1)?;
    put("two", &mut two, &changes(&[("a", None)]), 1)?; // a is deleted
    exchange(&mut two, &mut one)?;
    put("one", &mut one, &[&[6, 1], id].concat(), 1)?; // a receipt: it holds what two put first
    let settled = answer(&mut one, &[&[7], id, &[0, 0, 0, 1]].concat(), 6)?;
    println!("settled {}", if settled == [1] { "yes" } else { "no" });
    let checkpoint = put("one", &mut one, &[8], 7)?;
    exchange(&mut one, &mut two)?;
    put("two", &mut two, &body(9, &checkpoint[44..]), 1)?;
    let kept = file_of(&mut one)?;
    one.ask(Op::End, 0, &[])?;
    one.ask(Op::Start, 1, &kept)?; // again: the roster and the key are kept
    show(&mut one, "color")?;
    show(&mut one, "a")?;
    old.ask(Op::Start, 1, &copy)?; // node one from an old copy of its journal: a fork
    put("old", &mut old, &changes(&[("color", Some("black"))]), 1)?;
    exchange(&mut old, &mut two)?;
    judge_all(&mut two, &roster)
}

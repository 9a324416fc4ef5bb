//! As tests/lib/driver.c says, through this package.
use kr::{Op, Pair, Reply, Session};
use std::error::Error;
use std::fmt::Display;
use std::fs;
use std::io::{stdin, stdout, BufWriter, Write};

fn listed<T>(list: &[T], shown: impl Fn(&T) -> String) -> String {
    list.iter().map(|it| format!(" {}", shown(it))).collect()
}

fn pairs(list: &[Pair]) -> String {
    listed(list, |it| format!("{}:{}", it.key, it.value))
}

fn valued(word: &str, value: impl Display) -> String {
    format!("{word} {value} 0")
}

fn line_of(reply: &Reply) -> String {
    match reply {
        Reply::Found(value) => valued("found", value),
        Reply::None => valued("none", 0),
        Reply::Going(key) => valued("going", key),
        Reply::Rows(rows) => format!("rows{}", pairs(rows)),
        Reply::Done => valued("done", 0),
        Reply::Duplicate => valued("duplicate", 0),
        Reply::Deleted(value) => valued("deleted", value),
        Reply::Absent => valued("absent", 0),
        Reply::Updated(value) => valued("updated", value),
        Reply::Committed => valued("committed", 0),
        Reply::Aborted => valued("aborted", 0),
        Reply::Undone(left) => valued("undone", left),
        Reply::Blocked(txns) => format!("blocked{}", listed(txns, u32::to_string)),
        Reply::Refused(refusal) => format!("refused 0 {refusal}"),
    }
}

fn state(session: &mut Session) -> Result<String, kr::Error> {
    let locks = listed(&session.locks()?, |it| format!("{},{},{},{}", it.key, it.is_end, it.txn, it.mode));
    let (index, unfinished) = (pairs(&session.index()?), listed(&session.unfinished()?, u32::to_string));
    let ghosts = listed(&session.ghosts()?, u64::to_string);
    let (is_serial, text) = session.verdict()?;
    Ok(format!("index{index} ghosts{ghosts} locks{locks} unfinished{unfinished} verdict {} {text}", u32::from(!is_serial)))
}

fn operation(kind: &str, first: u64, second: u64) -> Option<Op> {
    Some(match kind {
        "0" => Op::Fetch(first),
        "1" => Op::Scan(first, second),
        "2" => Op::Go,
        "3" => Op::Insert(first, second),
        "4" => Op::Delete(first),
        "5" => Op::Update(first, second),
        "6" => Op::Commit,
        "7" => Op::Abort,
        "8" => Op::Back,
        _ => return None,
    })
}

fn told((is_yes, text): (bool, String)) -> String {
    format!("{} {} {text}", u32::from(!is_yes), text.len())
}

fn main() -> Result<(), Box<dyn Error>> {
    let mut out = BufWriter::new(stdout());
    let mut session = None;
    for line in stdin().lines() {
        let line = line?;
        let words: Vec<&str> = line.split(' ').collect();
        match (words.as_slice(), &mut session) {
            (["open", table, script], _) => {
                session = Some(Session::open(&fs::read(table)?, &fs::read(script)?)?);
                writeln!(out, "opened")?;
            }
            (["check", table], _) => writeln!(out, "{}", told(kr::check(&fs::read(table)?)?))?,
            (["run", table, script], _) => writeln!(out, "{}", told(kr::run(&fs::read(table)?, &fs::read(script)?)?))?,
            (["explain", table], _) => writeln!(out, "{}", told(kr::explain(&fs::read(table)?)?))?,
            (["purge", key], Some(session)) => writeln!(out, "purge {}", u32::from(session.purge(key.parse()?)?))?,
            (["script", table, number], _) => {
                let script = kr::explain_script(&fs::read(table)?, number.parse()?)?;
                let line = script.as_deref().unwrap_or("");
                writeln!(out, "{} {} {line}", u32::from(script.is_none()), line.len())?;
            }
            (["step", txn, kind, first, second], Some(session)) => {
                let op = operation(kind, first.parse()?, second.parse()?).ok_or("an operation")?;
                writeln!(out, "{}", line_of(&session.step(txn.parse()?, op)?))?;
            }
            (["state"], Some(session)) => writeln!(out, "{}", state(session)?)?,
            (["close"], _) => session = None,
            _ => return Err("a line".into()),
        }
    }
    out.flush()?;
    Ok(())
}

//! The phantom, step by step, and faults.
use kr::{Error, Op, Reply, Session};

const SCRIPT: &[u8] = br#"{"format":1,"opening":[[10,1],[20,2],[30,3]],"steps":[]}"#;

#[test]
fn a_phantom_is_blocked_until_the_reader_commits() -> Result<(), Error> {
    let mut session = Session::open(b"@kvl", SCRIPT)?;
    assert_eq!(session.step(1, Op::Scan(10, 20))?, Reply::Going(10));
    let Reply::Rows(rows) = session.step(1, Op::Go)? else { panic!("the scan goes on") };
    assert_eq!(rows.iter().map(|it| (it.key, it.value)).collect::<Vec<_>>(), [(10, 1), (20, 2)]);
    assert_eq!(session.step(2, Op::Insert(15, 5))?, Reply::Blocked(vec![1]));
    assert!(session.locks()?.iter().all(|it| it.txn == 1));
    assert_eq!(session.step(1, Op::Commit)?, Reply::Committed);
    assert_eq!(session.step(2, Op::Insert(15, 5))?, Reply::Done);
    assert_eq!(session.unfinished()?, [2]);
    assert_eq!(session.step(2, Op::Commit)?, Reply::Committed);
    assert_eq!(session.index()?.len(), 4);
    assert_eq!(session.verdict()?, (true, r#"{"script":"session","verdict":["serial"]}"#.to_owned()));
    Ok(())
}

#[test]
fn a_ghost_stays_until_it_is_purged() -> Result<(), Error> {
    let mut session = Session::open(b"@record-gap", SCRIPT)?;
    assert_eq!(session.step(1, Op::Delete(10))?, Reply::Deleted(1));
    assert_eq!((session.ghosts()?, session.purge(10)?), (vec![10], false));
    assert_eq!(session.step(1, Op::Commit)?, Reply::Committed);
    assert_eq!((session.purge(10)?, session.purge(10)?, session.ghosts()?), (true, false, vec![]));
    Ok(())
}

#[test]
fn faults_have_their_lines() {
    assert!(matches!(Session::open(b"x", SCRIPT), Err(Error::Table(line)) if line.starts_with("table: fault 2")));
    assert!(matches!(kr::run(b"@kvl", b"x"), Err(Error::Script(line)) if line.starts_with("script: fault 2")));
    assert_eq!(kr::mode(b"@kvl", 1).as_deref(), Ok("IS"));
    assert_eq!(kr::is_safe(b"@kvl"), Ok(true));
    assert!(kr::check(b"@kvl").is_ok_and(|told| told.0));
    assert!(kr::explain(b"@kvl").is_ok_and(|told| told.0 && told.1.starts_with("accepted: ")));
    assert_eq!(kr::explain_script(b"@kvl", 1), Ok(None));
    assert_eq!(kr::version(), env!("CARGO_PKG_VERSION"));
}

#[test]
fn a_session_goes_to_another_thread() -> Result<(), Error> {
    let mut session = Session::open(b"@kvl", SCRIPT)?;
    let reply = std::thread::spawn(move || session.step(1, Op::Fetch(10))).join().expect("the thread ends");
    assert_eq!(reply?, Reply::Found(1));
    Ok(())
}

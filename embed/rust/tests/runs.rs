// SPDX-License-Identifier: Apache-2.0
//! Loads programs, runs them, and stops them.
use std::collections::BTreeMap;
use std::fs;
use std::thread;

use yuglemit::{Bound, Bounds, Caps, Container, End, Error, EventOrder, Format, MapKind, Mode, Options, Parameter, Program, RunError, Stop, Type, Value, session};

const ENDLESS: &str = "proc control\nregs int int\nINT v1 1\nREPEAT 5\nREPEAT 1000\nADD v0 v0 v1 no\nno:\nEND\nEND\nPUT 0 0 any\nRET\n";
/// Inserts a text by a text: the member is a text, and its subscript another.
const MEMBER: &str = "version 2\nproc control\nregs text\nNEW d0 d1 tcont text\nDROPR d1\nNEW d2 d3 text\nSTORE d2 v0\nTINS d0 v0 d3 there\nJMP done\nthere:\nDROPR d3\ndone:\nDROPW d0\nRET\n";
const REFUSED: &str = "proc control write int\nregs int\nINT v0 7\nRET\n";

/// A program that gives its input back.
fn same(kind: &str) -> Program {
    let text = format!("proc control closed {kind} write {kind}\nregs {kind}\nGET v0 d0\nDROPR d0\nSTORE d1 v0\nRET\n");
    Program::load(text).expect("it is accepted")
}

/// A program that gives how many members its input has.
fn sized(kind: &str) -> Program {
    let version = if kind.starts_with("tcont") { "version 2\n" } else { "" };
    let text = format!("{version}proc control closed {kind} write int\nregs int\nSIZE v0 d0\nDROPR d0\nSTORE d1 v0\nRET\n");
    Program::load(text).expect("it is accepted")
}

/// Options with these caps.
fn capped(caps: Caps) -> Options<'static> {
    let mut options = Options::default();
    options.caps = caps;
    options
}

/// Loads an example of the repository; a crate without one has none.
fn example(name: &str) -> Option<Program> {
    let source = fs::read(format!("{}/../../examples/{name}", env!("CARGO_MANIFEST_DIR"))).ok()?;
    Some(Program::load(source).expect("it is accepted"))
}

#[test]
fn values_return_as_they_are() -> Result<(), Error> {
    for number in [i64::MIN, -1, 0, i64::MAX] {
        assert_eq!(same("int").run(&[number.into()])?.outputs()?, [Value::Int(number)]);
    }
    let long = "x".repeat(4096);
    for text in ["", "--help", "a\nb", "a\0b\r", "\u{1f600}", &long] {
        assert_eq!(same("text").run(&[text.into()])?.outputs()?, [Value::Text(text.into())]);
    }
    Ok(())
}

#[test]
fn arguments_may_have_line_feeds() {
    let text = b"proc control closed text write text\nregs text\nGET v0 d0\nDROPR d0\nSTORE d1 v0\nRET\n";
    let reply = session(&["run", "--text", "text:a\nb\n"], text);
    assert_eq!((reply.status, reply.text), (0, b"out 0 text \"a\\nb\\n\"\nquiet\n".to_vec()));
    assert_eq!(session(&[], b"").status, 2);
    assert_eq!(session(&[""], b"").status, 2);
}

#[test]
fn containers_are_inputs() -> Result<(), Error> {
    let inputs: [(&str, Value); 4] = [
        ("cont int", [(5, -3), (1, 7)].into()),
        ("cont text", [(5, "\n"), (1, "")].into()),
        ("tcont int", [("é", 1), ("", 2)].into()),
        ("tcont text", BTreeMap::from([("b".to_string(), "1"), ("a".to_string(), "2")]).into()),
    ];
    for (kind, value) in inputs {
        assert_eq!(sized(kind).run(&[value])?.outputs()?, [Value::Int(2)], "{kind}");
    }
    Ok(())
}

#[test]
fn outputs_are_inputs() -> Result<(), Error> {
    let Some(program) = example("two_inputs.twn") else { return Ok(()) };
    let report = program.run(&[[(1, 7), (5, -3)].into(), Value::Int(-4)])?;
    assert_eq!((report.end(), report.is_closed(0)?), (End::Quiet, true));
    assert_eq!(report.outputs()?, [Value::from([(-4, 2), (2, -4)])]);
    assert_eq!((report.member(0, 2)?, report.member(0, -4)?), (Some(Value::Int(-4)), Some(Value::Int(2))));
    assert_eq!((report.member(0, 0)?, report.member(1, 2)?, report.member(0, "2")?), (None, None, None));
    assert_eq!(program.run(&[report.output(0)?, 1.into()])?.end(), End::Quiet);
    Ok(())
}

#[test]
fn members_by_text() -> Result<(), Error> {
    let Some(program) = example("words.twn") else { return Ok(()) };
    let report = program.run(&[[(1, "the"), (2, "cat"), (3, "the")].into()])?;
    assert_eq!(report.outputs()?, [Value::from([("cat", 1), ("the", 2)])]);
    assert_eq!((report.member(0, "the")?, report.member(0, "dog")?, report.member(0, 1)?), (Some(Value::Int(2)), None, None));
    Ok(())
}

#[test]
fn maps_have_values() -> Result<(), Error> {
    let text = "version 4\nproc control closed map int write tmap sum\nregs text int int\nTEXT v0 \"all\"\nINT v1 1\nMGET v2 d0 v1 +1\nMADD d1 v0 v2\nDROPR d0\nDROPW d1\nRET\n";
    let program = Program::load(text)?;
    let parameters = program.procedures()?.swap_remove(0).parameters;
    let maps = [MapKind { by: Type::Int, is_sums: false }, MapKind { by: Type::Text, is_sums: true }];
    assert_eq!(parameters.iter().map(|it| (it.by.len(), it.scalar, it.map)).collect::<Vec<_>>(), maps.map(|map| (0, Type::Int, Some(map))));
    let report = program.run(&[[(1, 7), (5, -3)].into()])?;
    assert_eq!(report.outputs()?, [[("all", 7)].into()]);
    assert_eq!((report.member(0, "all")?, report.member(0, "none")?), (Some(7.into()), None));
    let meter = report.meter()?;
    assert_eq!((meter.data, meter.members, meter.bytes), (2, 1, 3));
    Ok(())
}

#[test]
fn open_outputs() -> Result<(), Error> {
    let leaf = "proc leaf closed int write int write int write cont int\nregs int\nDROPR d0\nSTORE d1 v0\nSTORE d2 v0\nDROPW d3\nRET\n";
    let program = Program::load(format!("proc control write int write cont int\nregs\nNEW d2 d3 int\nRULE 1 0 any 3 2 0 1\nRET\n\n{leaf}"))?;
    let report = program.run(&[])?;
    let empty = Container { by: Type::Int, of: Type::Int, members: BTreeMap::new() };
    assert_eq!((report.end(), report.partial()?), (End::Stuck, vec![Value::Unset, Value::Container(empty)]));
    assert_eq!((report.outputs(), report.output(0)), (Err(Error::Unfinished(End::Stuck)), Err(Error::Unfinished(End::Stuck))));
    assert_eq!(report.member(1, 0), Err(Error::Unfinished(End::Stuck)));
    assert_eq!((report.is_closed(0)?, report.is_closed(1)?), (false, false));
    Ok(())
}

#[test]
fn what_is_no_input() {
    let mut mixed = Container { by: Type::Int, of: Type::Int, members: BTreeMap::new() };
    mixed.members.insert("a".into(), Some(1.into()));
    assert_eq!(sized("cont int").run(&[Value::Container(mixed)]).err(), Some(Error::NoInput));
    assert_eq!(same("int").run(&[Value::Unset]).err(), Some(Error::NoInput));
    assert_eq!(same("int").run(&[]).err(), Some(Error::Run(RunError::InputCount)));
    assert_eq!(same("int").run(&["7".into()]).err(), Some(Error::Unfit(0)));
    let two = Program::load("proc control closed int closed text\nregs\nDROPR d0\nDROPR d1\nRET\n").expect("it is accepted");
    assert_eq!(two.run(&[7.into(), 7.into()]).err().map(|why| why.to_string()).as_deref(), Some("refused O02 at input 2"));
    let mut wide = Options::default();
    wide.workers = 17;
    assert_eq!(same("int").run_with(&[7.into()], &wide).err(), Some(Error::NoLayout));
}

#[test]
fn orders_are_checked() -> Result<(), Error> {
    // docs/FORMAT.md has both answers of the check.
    let (Some(same), Some(copies)) = (example("pipeline.twn"), example("fan_out.twn")) else { return Ok(()) };
    assert_eq!((same.order()?, copies.order()?), (EventOrder::Same, EventOrder::MayShow { procedure: 1, place: 3 }));
    Ok(())
}

/// Two tasks insert at the two subscripts by copies of one right, so they compete if these are one.
#[test]
fn orders_of_runs_are_certified() -> Result<(), Error> {
    let program = Program::load(concat!(
        "proc control closed int closed int write cont int\nregs int int\nGET v0 d0\nGET v1 d1\nDROPR d0\nDROPR d1\nDUPW d3 d2\nPUT 1 0 any 2 0\nPUT 1 0 any 3 1\nRET\n",
        "proc leaf write cont int val int\nregs int\nNEW d1 d2 int\nSTORE d1 v0\nINS d0 v0 d2 +1\nJMP +1\nDROPR d2\nDROPW d0\nRET\n",
    ))?;
    let mut options = Options::default();
    assert_eq!(program.run(&[1.into(), 2.into()])?.order(), Err(Error::NoOrder));
    options.order = true;
    assert_eq!(program.run_with(&[1.into(), 2.into()], &options)?.order()?, Some(EventOrder::Same));
    assert_eq!(program.run_with(&[1.into(), 1.into()], &options)?.order()?, Some(EventOrder::MayShow { procedure: 1, place: 2 }));
    options.limit = 3;
    assert_eq!(program.run_with(&[1.into(), 1.into()], &options)?.order()?, None);
    Ok(())
}

#[test]
fn bounds_are_numbers() -> Result<(), Error> {
    // docs/FORMAT.md has those of pipeline.tw, whose budgets are 6; it has neither members nor texts.
    let Some(program) = example("pipeline.twn") else { return Ok(()) };
    let listed = |it: Bounds| [it.tasks, it.instructions, it.data, it.members, it.rules, it.bytes, it.events];
    assert_eq!(listed(program.bounds()?), [4, 24, 2, 0, 3, 0, 37].map(Bound::AtMost));
    assert_eq!(listed(program.bounds_within(3)?), [3, 18, 2, 0, 3, 0, 3].map(Bound::AtMost));
    let over = Err(Error::Run(RunError::Limit));
    assert_eq!((program.bounds_within(0), program.bounds_within(1_000_001)), (over.clone(), over));
    let endless = Program::load(ENDLESS)?;
    assert_eq!((endless.bounds()?.tasks, endless.bounds_within(5)?.tasks), (Bound::Endless, Bound::AtMost(5)));
    // 2,000 leaves of 800,000,000 instructions and more each.
    let turns = "REPEAT 400\nREPEAT 1000\nREPEAT 1000\nADD v0 v0 v0 no\nno:\nEND\nEND\nEND\nRET\n";
    let puts = "proc control\nregs\nREPEAT 2\nREPEAT 1000\nPUT 1 0 any\nEND\nEND\nRET\n";
    let long = Program::load(format!("{puts}proc leaf\nregs int\n{turns}"))?;
    assert_eq!((long.bounds()?.tasks, long.bounds()?.instructions), (Bound::AtMost(2001), Bound::Over));
    let member = Program::load(MEMBER)?;
    let held = |bounds: Bounds| (bounds.members, bounds.bytes);
    assert_eq!(held(member.bounds()?), (Bound::AtMost(1), Bound::AtMost(12288)));
    assert_eq!(held(member.bounds_within(1)?), (Bound::AtMost(1), Bound::AtMost(4096)));
    Ok(())
}

#[test]
fn caps_admit_programs() -> Result<(), Error> {
    let Some(program) = example("pipeline.twn") else { return Ok(()) };
    let run = |caps, limit| {
        let mut options = capped(caps);
        options.limit = limit;
        program.run_with(&[39.into()], &options).map(|report| report.end())
    };
    let with = |tasks, instructions, data, budget, rules| {
        let mut caps = Caps::default();
        (caps.tasks, caps.instructions, caps.data) = (tasks, Some(instructions), Some(data));
        (caps.bytes, caps.budget, caps.members, caps.rules) = (Some(0), Some(budget), Some(0), Some(rules));
        caps
    };
    assert_eq!(run(with(Some(4), 24, 2, 6, 3), 10_000), Ok(End::Quiet));
    assert_eq!(run(with(None, 24, 2, 6, 3), 10_000), Ok(End::Quiet));
    let smaller = [with(Some(3), 24, 2, 6, 3), with(Some(4), 23, 2, 6, 3), with(Some(4), 24, 1, 6, 3), with(Some(4), 24, 2, 5, 3), with(Some(4), 24, 2, 6, 2)];
    for caps in smaller {
        assert_eq!(run(caps, 10_000), Err(Error::Run(RunError::AboveCap)), "{caps:?}");
    }
    assert_eq!(run(smaller[0], 3), Ok(End::Limit));
    Ok(())
}

#[test]
fn caps_on_texts() -> Result<(), Error> {
    let program = Program::load(MEMBER)?;
    let run = |most| {
        let mut caps = Caps::default();
        caps.bytes = Some(most);
        program.run_with(&[], &capped(caps)).map(|report| report.end())
    };
    assert_eq!((run(12288), run(12287)), (Ok(End::Quiet), Err(Error::Run(RunError::AboveCap))));
    let run = |most| {
        let mut caps = Caps::default();
        caps.members = Some(most);
        program.run_with(&[], &capped(caps)).map(|report| report.end())
    };
    assert_eq!((run(1), run(0)), (Ok(End::Quiet), Err(Error::Run(RunError::AboveCap))));
    Ok(())
}

#[test]
fn errors_say_where() {
    let Err(Error::Refused(refused)) = Program::load(REFUSED) else { panic!("it is accepted") };
    assert_eq!(refused.to_string(), "refused V10 in procedure 0 at place 1 at line 4");
    let Err(Error::Refused(refused)) = Program::load("proc control\nregs int\nADD v0 v0 1 +0\nRET\n") else { panic!("it is accepted") };
    assert_eq!((refused.code().as_str(), refused.line, refused.word, refused.column), ("A02", 3, 4, 11));
    let Err(Error::Refused(refused)) = Program::load("names\nproc control main()\nregs n: int\nADD n é totl next\nRET\n") else { panic!("it is accepted") };
    assert_eq!((refused.code().as_str(), refused.line, refused.word, refused.column), ("N04", 4, 4, 9));
    let why: Box<dyn std::error::Error> = Program::load_as("", Format::Bytes).err().expect("it is no program").into();
    assert_eq!(why.to_string(), "refused F03 at byte 0");
    assert_eq!(yuglemit::verify(b"").map_err(|why| why.to_string()), Err("refused F03 at byte 0".into()));
}

#[test]
fn programs_are_shared_by_threads() -> Result<(), Error> {
    let program = same("int");
    let threads: Vec<_> = (0..8)
        .map(|number| {
            let its = program.share().expect("it is shared");
            thread::spawn(move || (0..100).all(|k| its.run(&[(number + k).into()]).and_then(|it| it.output(0)) == Ok(Value::Int(number + k))))
        })
        .collect();
    drop(program);
    assert!(threads.into_iter().all(|it| it.join().expect("a thread ends")));
    Ok(())
}

#[test]
fn threads_read_one_program_and_one_report() -> Result<(), Error> {
    let (program, report) = (same("int"), same("text").run(&["é".into()])?);
    let works = |number: i64| {
        let ran = program.run(&[number.into()]).and_then(|it| it.output(0)) == Ok(Value::Int(number));
        ran && report.outputs() == Ok(vec!["é".into()]) && report.text().is_ok_and(|text| text == "out 0 text \"é\"\nquiet\n")
    };
    thread::scope(|threads| {
        let all: Vec<_> = (0..8).map(|number| threads.spawn(move || (0..100).all(|k| works(number + k)))).collect();
        assert!(all.into_iter().all(|it| it.join().expect("a thread ends")));
    });
    Ok(())
}

#[test]
fn a_source_has_a_greatest_length() -> Result<(), Error> {
    let text = "proc control\nregs\nRET\n";
    Program::load_within(text, Format::Any, text.len() as u64)?;
    let Err(Error::Refused(refused)) = Program::load_within(text, Format::Any, text.len() as u64 - 1) else { panic!("it is accepted") };
    assert_eq!(refused.to_string(), "refused H02");
    Ok(())
}

#[test]
fn containers_are_read_at_once() -> Result<(), Error> {
    let text = "proc control write cont int\nregs int int\nINT v1 1\nREPEAT 300\nNEW d1 d2 int\nSTORE d1 v0\nINS d0 v0 d2 have\nJMP next\nhave:\nDROPR d2\n\
                next:\nADD v0 v0 v1 too_large\ntoo_large:\nEND\nDROPW d0\nRET\n";
    let Value::Container(found) = Program::load(text)?.run(&[])?.output(0)? else { panic!("it is a container") };
    assert!(found.members.len() == 300 && found.members.iter().all(|(by, of)| Some(by) == of.as_ref()));
    Ok(())
}

#[test]
fn another_thread_stops_a_run() -> Result<(), Error> {
    let (program, stop) = (Program::load(ENDLESS)?, Stop::new()?);
    let other = stop.share()?;
    let mut options = Options::default();
    (options.limit, options.stop) = (1_000_000, Some(&stop));
    let thread = thread::spawn(move || other.raise());
    let report = program.run_with(&[], &options)?;
    thread.join().expect("a thread ends");
    assert!(report.end() == End::Stopped && report.events() < 1_000_000);
    stop.lower();
    options.limit = 20;
    let report = program.run_with(&[], &options)?;
    assert_eq!((report.end(), report.events()), (End::Limit, 20));
    Ok(())
}

#[test]
fn a_run_has_a_million_events() -> Result<(), Error> {
    let report = Program::load("proc control\nregs\nPUT 0 0 any\nRET\n")?.run(&[])?;
    assert_eq!((report.end(), report.events()), (End::Limit, 1_000_000));
    Ok(())
}

#[test]
fn budgets_and_needs() -> Result<(), Error> {
    let program = same("int");
    assert_eq!((program.budgets()?, program.needs()), (vec![4], (0, 0)));
    let Some(program) = example("for_one_worker.twn") else { return Ok(()) };
    assert_eq!(program.needs(), (0, 2));
    Ok(())
}

#[test]
fn reports_are_printed() -> Result<(), Error> {
    let program = same("int");
    let report = program.run(&[7.into()])?;
    assert_eq!((report.text()?.as_str(), report.instructions()?), ("out 0 int 7\nquiet\n", 4));
    let meter = report.meter()?;
    assert_eq!((meter.events, meter.tasks, meter.instructions), (report.events() as u64, 1, 4));
    assert_eq!((meter.data, meter.members, meter.bytes), (2, 0, 0));
    assert!(report.trace()?.starts_with("events\n") && report.json()?.contains("\"outputs\":[7]"));
    let stop = Stop::new()?;
    stop.raise();
    let mut options = Options::default();
    options.stop = Some(&stop);
    let report = program.run_with(&[7.into()], &options)?;
    assert_eq!((report.json(), report.instructions()?), (Err(Error::NoEnd), 0));
    assert_eq!((report.meter()?.events, report.meter()?.tasks, report.meter()?.instructions), (0, 0, 0));
    Ok(())
}

#[test]
fn procedures_have_parameters() -> Result<(), Error> {
    let main = sized("tcont text").procedures()?.swap_remove(0);
    let listed = |parameters: &[Parameter]| parameters.iter().map(|it| (it.mode, it.by.clone(), it.scalar)).collect::<Vec<_>>();
    assert!(main.is_control);
    assert_eq!(listed(&main.parameters), [(Mode::Closed, vec![Type::Text], Type::Text), (Mode::Write, vec![], Type::Int)]);
    let second = "proc control val int ref int\nregs int\nDROPR d0\nRET\n";
    let two = Program::load(format!("proc control\nregs int\nNEW d0 d1 int\nSTORE d0 v0\nPUT 1 0 any 0 1\nRET\n{second}"))?;
    assert_eq!(listed(&two.procedures()?[1].parameters), [Mode::Value, Mode::Read].map(|mode| (mode, vec![], Type::Int)));
    let leaf = Program::load("proc control\nregs\nPUT 1 0 any\nRET\nproc leaf\nregs\nRET\n")?;
    assert_eq!(leaf.procedures()?.iter().map(|it| it.is_control).collect::<Vec<_>>(), [true, false]);
    Ok(())
}

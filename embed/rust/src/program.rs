// SPDX-License-Identifier: Apache-2.0
use crate::raw::{self, OfInputs, OfProgram, Owner, done};
use crate::{Error, Refused, Report, RunError, Stop, Type, Value};

/// The format of a program's source.
#[derive(Clone, Copy, Debug, Default, PartialEq, Eq)]
#[non_exhaustive]
pub enum Format {
    /// Bytes begin with `TWB`, hex text has only digits and white space, and anything else is assembly text.
    #[default]
    Any,
    Bytes,
    Hex,
    /// Assembly text, symbolic or not.
    Text,
}

/// The most that a run may do. A program with a bound above a cap isn't run: [`RunError::AboveCap`].
#[derive(Clone, Copy, Debug, Default, PartialEq, Eq)]
#[non_exhaustive]
pub struct Caps {
    /// Tasks that are taken.
    pub tasks: Option<u64>,
    /// Instructions that are executed.
    pub instructions: Option<u64>,
    /// Data that are made.
    pub data: Option<u64>,
    /// Bytes of the texts of data, rules and tasks at any time, beyond those of the inputs and of outputs that are texts.
    pub bytes: Option<u64>,
    /// Instructions of one task.
    pub budget: Option<u64>,
    /// Members that the store holds at any time, beyond those of the inputs.
    pub members: Option<u64>,
    /// Rules that are made.
    pub rules: Option<u64>,
}

impl Caps {
    /// Returns them in the order of the library, which has the greatest number for no cap.
    fn raw(&self) -> [u64; 7] {
        let Caps { tasks, instructions, data, bytes, budget, members, rules } = *self;
        [tasks, instructions, data, bytes, budget, members, rules].map(|most| most.unwrap_or(u64::MAX))
    }
}

/// A bound of runs.
#[derive(Clone, Copy, Debug, PartialEq, Eq)]
pub enum Bound {
    AtMost(u64),
    /// The number is over 1,000,000,000,000.
    Over,
    /// A procedure starts itself, directly or through others, so there is no such number.
    Endless,
}

impl Bound {
    fn of(number: u64) -> Bound {
        match number {
            raw::NO_BOUND => Bound::Endless,
            raw::OVER => Bound::Over,
            _ => Bound::AtMost(number),
        }
    }
}

/// The most that runs do, whatever the inputs, the layout and the order of events.
#[derive(Clone, Copy, Debug, PartialEq, Eq)]
#[non_exhaustive]
pub struct Bounds {
    /// Tasks that are taken, main's included.
    pub tasks: Bound,
    /// Instructions that are executed.
    pub instructions: Bound,
    /// Data that are made.
    pub data: Bound,
    /// Members that the store holds at any time, beyond those of the inputs.
    pub members: Bound,
    /// Rules that are made.
    pub rules: Bound,
    /// Bytes of the texts of data, rules and tasks at any time, beyond those of the inputs and of outputs that are texts: 4,096 a text.
    pub bytes: Bound,
    pub events: Bound,
}

/// Whether the order of events may show in outputs.
#[derive(Clone, Copy, Debug, PartialEq, Eq)]
pub enum EventOrder {
    /// All runs with the same inputs that end by themselves end alike with the same outputs, in any layout and order.
    Same,
    /// Outputs may differ. This is the first insertion that may make them so.
    MayShow { procedure: usize, place: usize },
}

/// How a run is made. Begin with the default, and change what you need: later versions have more fields.
#[derive(Clone, Copy)]
#[non_exhaustive]
pub struct Options<'a> {
    /// The most events, 1 to 1,000,000.
    pub limit: usize,
    pub engines: u8,
    pub servers: u8,
    pub workers: u8,
    /// Decides the order of the turns; without it the actors take turns.
    pub seed: Option<std::num::NonZeroU64>,
    pub caps: Caps,
    /// Ends the run when it is raised.
    pub stop: Option<&'a Stop>,
    /// Lets [`Report::order`] return the run's order. It takes a replay.
    pub order: bool,
}

impl Default for Options<'_> {
    fn default() -> Self {
        Options { limit: 1_000_000, engines: 1, servers: 1, workers: 1, seed: None, caps: Caps::default(), stop: None, order: false }
    }
}

/// How a parameter is held.
#[derive(Clone, Copy, Debug, PartialEq, Eq)]
#[non_exhaustive]
pub enum Mode {
    Value,
    /// A read right on a closed datum.
    Closed,
    /// A read right.
    Read,
    Write,
}

impl Mode {
    fn of(letter: u64) -> Mode {
        match letter as u8 {
            b'v' => Mode::Value,
            b'c' => Mode::Closed,
            b'r' => Mode::Read,
            _ => Mode::Write,
        }
    }
}

/// A parameter: a scalar or a map inside containers, of each of which `by` has the type of the subscripts, the outermost first.
#[derive(Clone, Debug, PartialEq, Eq)]
#[non_exhaustive]
pub struct Parameter {
    pub mode: Mode,
    pub by: Vec<Type>,
    /// The type of the scalar, or of the map's values.
    pub scalar: Type,
    pub map: Option<MapKind>,
}

/// The subscripts of a map, and whether its values are sums.
#[derive(Clone, Copy, Debug, PartialEq, Eq)]
pub struct MapKind {
    pub by: Type,
    pub is_sums: bool,
}

/// A procedure, which runs on an engine if it is a control procedure, else on a worker.
#[derive(Clone, Debug, PartialEq, Eq)]
#[non_exhaustive]
pub struct Procedure {
    pub is_control: bool,
    pub parameters: Vec<Parameter>,
}

/// The greatest length of a source in bytes, if nothing is said: 16 MiB.
pub const MOST_BYTES: u64 = 16_777_216;

/// The newest version of the language whose types this crate has.
const LANGUAGE: u64 = 5;

/// A program that is verified. Any number of threads may run it at once.
pub struct Program {
    owner: Owner<OfProgram>,
    engines: u8,
    workers: u8,
}

// Each pointer below is a slice's, a local's or an owner's own, and the owners of a call are different ones.

impl Program {
    /// Loads a program from its bytes, hex text or assembly text.
    ///
    /// ```
    /// use yuglemit::{Error, Program};
    ///
    /// let Err(Error::Refused(refused)) = Program::load("proc control write int\nregs int\nINT v0 7\nRET\n") else { panic!() };
    /// assert_eq!((refused.code().as_str(), refused.place, refused.line), ("V10", 1, 4));
    /// ```
    pub fn load(source: impl AsRef<[u8]>) -> Result<Program, Error> {
        Program::load_as(source, Format::Any)
    }

    /// Loads a program of this format.
    pub fn load_as(source: impl AsRef<[u8]>, format: Format) -> Result<Program, Error> {
        Program::load_within(source, format, MOST_BYTES)
    }

    /// Loads a program of this format and of at most so many bytes. A longer source is refused, H02.
    pub fn load_within(source: impl AsRef<[u8]>, format: Format, most_bytes: u64) -> Result<Program, Error> {
        let (source, owner) = (source.as_ref(), Owner::new());
        let (mut verdict, options) = ([0; 9], [most_bytes, LANGUAGE]);
        let (numbers, count) = (verdict.as_mut_ptr(), verdict.len());
        let (letter, given) = (format.letter(), options.as_ptr());
        match unsafe { raw::yuglemit_raw_load_source(source.as_ptr(), source.len(), letter, given, options.len(), owner.at(), numbers, count) } {
            raw::code::REJECTED => Err(Error::Refused(Refused::of(&verdict))),
            code => done(code).map(|()| Program { owner, engines: verdict[2] as u8, workers: verdict[3] as u8 }),
        }
    }

    /// Makes another of the same program. The program isn't copied.
    pub fn share(&self) -> Result<Program, Error> {
        let owner = Owner::new();
        done(unsafe { raw::yuglemit_raw_program_share(&mut self.owner.seen(), owner.at()) })?;
        Ok(Program { owner, ..*self })
    }

    /// Returns how many engines and workers its targets need.
    pub fn needs(&self) -> (u8, u8) {
        (self.engines, self.workers)
    }

    /// Returns the procedures, main first.
    pub fn procedures(&self) -> Result<Vec<Procedure>, Error> {
        (0..self.procedure_count()?).map(|number| self.procedure(number)).collect()
    }

    fn procedure_count(&self) -> Result<usize, Error> {
        let mut count = 0;
        done(unsafe { raw::yuglemit_raw_program_procedures(&mut self.owner.seen(), &mut count) })?;
        Ok(count)
    }

    fn procedure(&self, number: usize) -> Result<Procedure, Error> {
        let mut found = [0; 2];
        done(unsafe { raw::yuglemit_raw_program_procedure(&mut self.owner.seen(), number, found.as_mut_ptr(), found.len()) })?;
        let [count, kind] = found;
        let parameters = (0..count as usize).map(|index| self.parameter(number, index)).collect::<Result<_, _>>()?;
        Ok(Procedure { is_control: kind == u64::from(b'c'), parameters })
    }

    fn parameter(&self, number: usize, index: usize) -> Result<Parameter, Error> {
        let mut found = [0; 7];
        done(unsafe { raw::yuglemit_raw_program_parameter(&mut self.owner.seen(), number, index, found.as_mut_ptr(), found.len()) })?;
        let [mode, _, scalar, by @ .., map] = found;
        let by = by.into_iter().filter(|letter| *letter != 0).map(|letter| Type::of(letter as u8)).collect();
        let map = (map != 0).then(|| MapKind { by: Type::of(map as u8), is_sums: scalar == u64::from(b's') });
        Ok(Parameter { mode: Mode::of(mode), by, scalar: Type::of(scalar as u8), map })
    }

    /// Returns for each procedure the most instructions that one of its tasks executes.
    pub fn budgets(&self) -> Result<Vec<u64>, Error> {
        (0..self.procedure_count()?).map(|procedure| self.budget(procedure)).collect()
    }

    fn budget(&self, procedure: usize) -> Result<u64, Error> {
        let mut most = 0;
        done(unsafe { raw::yuglemit_raw_program_budget(&mut self.owner.seen(), procedure, &mut most) })?;
        Ok(most)
    }

    /// Returns the bounds of all runs.
    pub fn bounds(&self) -> Result<Bounds, Error> {
        self.bounds_by(0)
    }

    /// Returns the bounds of runs with at most `limit` events, 1 to 1,000,000.
    pub fn bounds_within(&self, limit: usize) -> Result<Bounds, Error> {
        if limit == 0 { Err(Error::Run(RunError::Limit)) } else { self.bounds_by(limit) }
    }

    fn bounds_by(&self, limit: usize) -> Result<Bounds, Error> {
        let mut found = [0; 7];
        done(unsafe { raw::yuglemit_raw_program_bounds(&mut self.owner.seen(), limit, found.as_mut_ptr(), found.len()) })?;
        let [tasks, instructions, data, members, rules, bytes, events] = found;
        Ok(Bounds {
            tasks: Bound::of(tasks),
            instructions: Bound::of(instructions),
            data: Bound::of(data),
            members: Bound::of(members),
            rules: Bound::of(rules),
            bytes: Bound::of(bytes),
            events: Bound::of(events),
        })
    }

    /// Returns whether the order of events may show in outputs, whatever the inputs.
    pub fn order(&self) -> Result<EventOrder, Error> {
        let mut found = [0; 3];
        done(unsafe { raw::yuglemit_raw_program_order(&mut self.owner.seen(), found.as_mut_ptr(), found.len()) })?;
        let [may_show, procedure, place] = found.map(|number| number as usize);
        Ok(if may_show == 0 { EventOrder::Same } else { EventOrder::MayShow { procedure, place } })
    }

    /// Runs the program in this thread, its actors in turn, with at most 1,000,000 events.
    pub fn run(&self, inputs: &[Value]) -> Result<Report, Error> {
        self.run_with(inputs, &Options::default())
    }

    /// Runs the program in this thread, its actors in turn.
    pub fn run_with(&self, inputs: &[Value], options: &Options) -> Result<Report, Error> {
        let values = Owner::<OfInputs>::new();
        inputs.iter().try_for_each(|value| value.append(&values))?;
        let Options { limit, engines, servers, workers, seed, caps, stop, order } = *options;
        let options = [limit as u64, engines.into(), servers.into(), workers.into(), seed.map_or(0, |seed| seed.get()), order.into(), 1];
        let (none, report) = (Owner::new(), Owner::new());
        let stop = stop.map_or(&none, |stop| &stop.owner);
        let caps = caps.raw();
        let code = unsafe {
            let (program, inputs, stop) = (&mut self.owner.seen(), &mut values.seen(), &mut stop.seen());
            raw::yuglemit_raw_run(program, inputs, options.as_ptr(), options.len(), caps.as_ptr(), caps.len(), stop, report.at())
        };
        match code {
            raw::code::INPUT_TYPE => Err(self.unfit(&values)),
            code => done(code).and_then(|()| Report::of(report)),
        }
    }

    /// Returns the error O02 of these inputs.
    fn unfit(&self, values: &Owner<OfInputs>) -> Error {
        let mut index = 0;
        let found = done(unsafe { raw::yuglemit_raw_unfit_input(&mut self.owner.seen(), &mut values.seen(), &mut index) });
        found.map_or_else(|why| why, |()| Error::Unfit(index))
    }
}

impl Format {
    fn letter(self) -> u8 {
        match self {
            Format::Any => 0,
            Format::Bytes => b'b',
            Format::Hex => b'h',
            Format::Text => b't',
        }
    }
}

// SPDX-License-Identifier: Apache-2.0
use crate::raw::{self, Handle, Item, Member, OfReport, OfText, Owner, done, kept_text};
use crate::{Container, Error, EventOrder, Scalar, Type, Value};

/// How a run ended.
#[derive(Clone, Copy, Debug, PartialEq, Eq)]
#[non_exhaustive]
pub enum End {
    /// No rule and no task is left.
    Quiet,
    /// Rules wait for one another.
    Stuck,
    /// It had as many events as allowed.
    Limit,
    /// A [`Stop`](crate::Stop) was raised; the report is of the events so far.
    Stopped,
}

/// The meter of a run: how much it did, and what its store held at the end.
#[derive(Clone, Copy, Debug, PartialEq, Eq)]
#[non_exhaustive]
pub struct Meter {
    pub events: u64,
    /// Tasks that were taken, main's included.
    pub tasks: u64,
    /// Instructions that were executed; the greatest number if they were more.
    pub instructions: u64,
    /// Data that were made, with inputs, outputs and the members of inputs; a map is one.
    pub data: u64,
    /// Members and values of maps that the store held at the end, also in inputs and outputs.
    pub members: u64,
    /// Bytes of the texts that it held then: values and subscripts.
    pub bytes: u64,
}

/// The report of a run. Any number of threads may read it at once.
pub struct Report {
    owner: Owner<OfReport>,
    end: End,
    events: usize,
    outputs: usize,
}

// Each pointer below is a local's or an owner's own.

impl Report {
    pub(crate) fn of(owner: Owner<OfReport>) -> Result<Report, Error> {
        let mut ending = [0; 3];
        done(unsafe { raw::yuglemit_raw_report_ending(&mut owner.seen(), ending.as_mut_ptr(), ending.len()) })?;
        let [events, outputs, status] = ending.map(|number| number as usize);
        let end = match status {
            0 => End::Quiet,
            3 => End::Stuck,
            4 => End::Limit,
            5 => return Err(Error::NoMemory),
            _ => End::Stopped,
        };
        Ok(Report { owner, end, events, outputs })
    }

    /// Returns how the run ended.
    pub fn end(&self) -> End {
        self.end
    }

    /// Returns how many events the run had.
    pub fn events(&self) -> usize {
        self.events
    }

    /// Returns how much the run did, also if it was stopped.
    pub fn meter(&self) -> Result<Meter, Error> {
        let mut found = [0; 6];
        done(unsafe { raw::yuglemit_raw_report_meter(&mut self.owner.seen(), found.as_mut_ptr(), found.len()) })?;
        let [events, tasks, instructions, data, members, bytes] = found;
        Ok(Meter { events, tasks, instructions, data, members, bytes })
    }

    /// Returns whether the order of events may show in the run's outputs, if its options have `order`. None says that the run was cut off, and that
    /// nothing up to its last event may show it.
    pub fn order(&self) -> Result<Option<EventOrder>, Error> {
        let mut found = [0; 3];
        done(unsafe { raw::yuglemit_raw_report_order(&mut self.owner.seen(), found.as_mut_ptr(), found.len()) })?;
        let [may_show, procedure, place] = found.map(|number| number as usize);
        Ok(match may_show {
            0 => Some(EventOrder::Same),
            1 => Some(EventOrder::MayShow { procedure, place }),
            _ => None,
        })
    }

    /// Returns how many instructions the run executed; the greatest number if they were more.
    pub fn instructions(&self) -> Result<u64, Error> {
        let mut count = 0;
        done(unsafe { raw::yuglemit_raw_report_instructions(&mut self.owner.seen(), &mut count) })?;
        Ok(count)
    }

    /// Returns the report as `tw run` prints that of a program's bytes. The run isn't made again. If it was stopped, it ends with `running`.
    pub fn text(&self) -> Result<String, Error> {
        self.printed(|text| unsafe { raw::yuglemit_raw_print_report(&mut self.owner.seen(), text) })
    }

    /// Returns the events as `tw run --trace` prints them.
    pub fn trace(&self) -> Result<String, Error> {
        self.printed(|text| unsafe { raw::yuglemit_raw_print_trace(&mut self.owner.seen(), text) })
    }

    /// Returns the line of `tw run --json`, which a run that was stopped hasn't.
    pub fn json(&self) -> Result<String, Error> {
        self.printed(|text| unsafe { raw::yuglemit_raw_print_json(&mut self.owner.seen(), text) })
    }

    /// Returns the text that a call puts into a handle.
    fn printed(&self, call: impl Fn(*mut Handle) -> u8) -> Result<String, Error> {
        let made = Owner::<OfText>::new();
        done(call(made.at()))?;
        Ok(String::from_utf8(kept_text(&made)?).expect("texts are UTF-8"))
    }

    /// Returns all outputs of main, if the run ended quiet: otherwise they aren't the program's answer, and this is [`Error::Unfinished`].
    pub fn outputs(&self) -> Result<Vec<Value>, Error> {
        self.finished()?;
        self.partial()
    }

    /// Returns an output of main, if the run ended quiet.
    pub fn output(&self, output: usize) -> Result<Value, Error> {
        self.finished()?;
        self.read(output)
    }

    /// Returns the outputs as they are, however the run ended.
    pub fn partial(&self) -> Result<Vec<Value>, Error> {
        (0..self.outputs).map(|output| self.read(output)).collect()
    }

    fn finished(&self) -> Result<(), Error> {
        if self.end == End::Quiet { Ok(()) } else { Err(Error::Unfinished(self.end)) }
    }

    fn read(&self, output: usize) -> Result<Value, Error> {
        let item = self.item(output)?;
        if matches!(item.kind, b'c' | b'm') {
            return Ok(Value::Container(self.container(output, &item)?));
        }
        let text = |at, room, length| unsafe { raw::yuglemit_raw_report_text(at, output, room, length) };
        Ok(self.scalar(&item, text)?.map_or(Value::Unset, Value::from))
    }

    /// Returns whether an output never changes again.
    pub fn is_closed(&self, output: usize) -> Result<bool, Error> {
        Ok(self.item(output)?.closed == 1)
    }

    /// Returns the member of an output with this subscript, without reading the others: `Value::Unset` if it is unset, none if there is no such
    /// member. [`Error::Unfinished`] if the run didn't end quiet.
    pub fn member(&self, output: usize, subscript: impl Into<Scalar>) -> Result<Option<Value>, Error> {
        self.finished()?;
        let (subscript, mut place) = (subscript.into(), 0);
        let found = match &subscript {
            Scalar::Int(number) => unsafe { raw::yuglemit_raw_report_find_int(&mut self.owner.seen(), output, *number, &mut place) },
            Scalar::Text(text) => unsafe { raw::yuglemit_raw_report_find_text(&mut self.owner.seen(), output, text.as_ptr(), text.len(), &mut place) },
        };
        match done(found) {
            Ok(()) => Ok(Some(self.member_at(output, place)?.1.map_or(Value::Unset, Value::from))),
            Err(Error::NoIndex) => Ok(None),
            Err(why) => Err(why),
        }
    }

    fn item(&self, output: usize) -> Result<Item, Error> {
        let mut item = Item::default();
        done(unsafe { raw::yuglemit_raw_report_output(&mut self.owner.seen(), output, &mut item) })?;
        Ok(item)
    }

    fn container(&self, output: usize, item: &Item) -> Result<Container, Error> {
        let mut found = vec![Member::default(); item.length];
        done(unsafe { raw::yuglemit_raw_report_members(&mut self.owner.seen(), output, 0, found.as_mut_ptr(), found.len()) })?;
        let members = found.iter().enumerate().map(|(place, member)| self.member_of(output, place, member)).collect::<Result<_, _>>()?;
        Ok(Container { by: Type::of(item.by), of: Type::of(item.scalar), members })
    }

    fn member_at(&self, output: usize, place: usize) -> Result<(Scalar, Option<Scalar>), Error> {
        let mut member = Member::default();
        done(unsafe { raw::yuglemit_raw_report_member(&mut self.owner.seen(), output, place, &mut member) })?;
        self.member_of(output, place, &member)
    }

    /// Returns a member that was read, with its texts.
    fn member_of(&self, output: usize, place: usize, member: &Member) -> Result<(Scalar, Option<Scalar>), Error> {
        let text = |at, room, length| unsafe { raw::yuglemit_raw_report_subscript_text(at, output, place, room, length) };
        let subscript = self.scalar(&member.subscript, text)?.ok_or(Error::NoIndex)?;
        let text = |at, room, length| unsafe { raw::yuglemit_raw_report_member_text(at, output, place, room, length) };
        Ok((subscript, self.scalar(&member.value, text)?))
    }

    /// Returns an item's number, or its text, which a call writes; none if it is unset.
    fn scalar(&self, item: &Item, text: impl Fn(*mut Handle, *mut u8, usize) -> u8) -> Result<Option<Scalar>, Error> {
        match item.kind {
            b'i' => Ok(Some(Scalar::Int(item.number))),
            b't' => {
                let mut room = vec![0; item.length];
                done(text(&mut self.owner.seen(), room.as_mut_ptr(), room.len()))?;
                Ok(Some(Scalar::Text(String::from_utf8(room).expect("texts are UTF-8"))))
            }
            _ => Ok(None),
        }
    }
}

// SPDX-License-Identifier: Apache-2.0
//! The calls of embed/yuglemit.h.
use std::cell::UnsafeCell;
use std::ffi::c_void;
use std::marker::PhantomData;

use crate::{Error, RunError};

#[repr(C)]
#[derive(Clone, Copy)]
pub struct Handle(*mut c_void);

#[repr(C)]
#[derive(Clone, Copy, Default)]
pub struct Item {
    pub number: i64,
    pub length: usize,
    pub kind: u8,
    pub closed: u8,
    pub scalar: u8,
    pub by: u8,
}

#[repr(C)]
#[derive(Clone, Copy, Default)]
pub struct Member {
    pub subscript: Item,
    pub value: Item,
}

/// A bound over 1,000,000,000,000.
pub const OVER: u64 = u64::MAX - 1;
/// No bound.
pub const NO_BOUND: u64 = u64::MAX;

#[link(name = "yuglemit", kind = "static")]
unsafe extern "C" {
    pub fn yuglemit_session_text(words: *const u8, words_length: usize, input: *const u8, input_length: usize, output: *mut Handle) -> u8;
    pub fn yuglemit_raw_verify(bytes: *const u8, length: usize, verdict: *mut u64, count: usize) -> u8;
    pub fn yuglemit_raw_load_source(
        source: *const u8, length: usize, format: u8, options: *const u64, option_count: usize, program: *mut Handle, verdict: *mut u64, count: usize,
    ) -> u8;
    pub fn yuglemit_raw_program_share(program: *mut Handle, other: *mut Handle) -> u8;
    pub fn yuglemit_raw_program_procedures(program: *mut Handle, count: *mut usize) -> u8;
    pub fn yuglemit_raw_program_budget(program: *mut Handle, procedure: usize, budget: *mut u64) -> u8;
    pub fn yuglemit_raw_program_bounds(program: *mut Handle, limit: usize, bounds: *mut u64, count: usize) -> u8;
    pub fn yuglemit_raw_program_order(program: *mut Handle, order: *mut u64, count: usize) -> u8;
    pub fn yuglemit_raw_program_procedure(program: *mut Handle, procedure: usize, found: *mut u64, count: usize) -> u8;
    pub fn yuglemit_raw_program_parameter(program: *mut Handle, procedure: usize, index: usize, found: *mut u64, count: usize) -> u8;
    pub fn yuglemit_input_int(inputs: *mut Handle, number: i64) -> u8;
    pub fn yuglemit_input_text(inputs: *mut Handle, text: *const u8, length: usize) -> u8;
    pub fn yuglemit_raw_input_ints(inputs: *mut Handle, by: *const i64, by_count: usize, all: *const i64, count: usize) -> u8;
    pub fn yuglemit_raw_input_texts(
        inputs: *mut Handle, by: *const i64, by_count: usize, all: *const u8, length: usize, ends: *const u64, count: usize,
    ) -> u8;
    pub fn yuglemit_raw_input_ints_by_text(
        inputs: *mut Handle, by: *const u8, by_length: usize, by_ends: *const u64, by_count: usize, all: *const i64, count: usize,
    ) -> u8;
    pub fn yuglemit_raw_input_texts_by_text(
        inputs: *mut Handle, by: *const u8, by_length: usize, by_ends: *const u64, by_count: usize, all: *const u8, length: usize, ends: *const u64,
        count: usize,
    ) -> u8;
    pub fn yuglemit_stop_new(stop: *mut Handle) -> u8;
    pub fn yuglemit_raw_stop_share(stop: *mut Handle, other: *mut Handle) -> u8;
    pub fn yuglemit_raw_stop_raise(stop: *mut Handle) -> u8;
    pub fn yuglemit_raw_stop_lower(stop: *mut Handle) -> u8;
    pub fn yuglemit_raw_unfit_input(program: *mut Handle, inputs: *mut Handle, index: *mut usize) -> u8;
    pub fn yuglemit_raw_run(
        program: *mut Handle, inputs: *mut Handle, options: *const u64, option_count: usize, caps: *const u64, cap_count: usize, stop: *mut Handle,
        report: *mut Handle,
    ) -> u8;
    pub fn yuglemit_raw_report_ending(report: *mut Handle, ending: *mut u64, count: usize) -> u8;
    pub fn yuglemit_raw_report_output(report: *mut Handle, output: usize, item: *mut Item) -> u8;
    pub fn yuglemit_raw_report_member(report: *mut Handle, output: usize, place: usize, member: *mut Member) -> u8;
    pub fn yuglemit_raw_report_members(report: *mut Handle, output: usize, first: usize, members: *mut Member, count: usize) -> u8;
    pub fn yuglemit_raw_report_find_int(report: *mut Handle, output: usize, subscript: i64, place: *mut usize) -> u8;
    pub fn yuglemit_raw_report_find_text(report: *mut Handle, output: usize, subscript: *const u8, length: usize, place: *mut usize) -> u8;
    pub fn yuglemit_raw_report_text(report: *mut Handle, output: usize, room: *mut u8, length: usize) -> u8;
    pub fn yuglemit_raw_report_member_text(report: *mut Handle, output: usize, place: usize, room: *mut u8, length: usize) -> u8;
    pub fn yuglemit_raw_report_subscript_text(report: *mut Handle, output: usize, place: usize, room: *mut u8, length: usize) -> u8;
    pub fn yuglemit_raw_report_meter(report: *mut Handle, meter: *mut u64, count: usize) -> u8;
    pub fn yuglemit_raw_report_order(report: *mut Handle, order: *mut u64, count: usize) -> u8;
    pub fn yuglemit_raw_report_instructions(report: *mut Handle, count: *mut u64) -> u8;
    pub fn yuglemit_raw_print_report(report: *mut Handle, text: *mut Handle) -> u8;
    pub fn yuglemit_raw_print_trace(report: *mut Handle, text: *mut Handle) -> u8;
    pub fn yuglemit_raw_print_json(report: *mut Handle, text: *mut Handle) -> u8;
    fn yuglemit_raw_text_length(text: *mut Handle, length: *mut usize) -> u8;
    fn yuglemit_raw_text_copy(text: *mut Handle, room: *mut u8, length: usize) -> u8;
    fn yuglemit_program_free(program: Handle);
    fn yuglemit_inputs_free(inputs: Handle);
    fn yuglemit_stop_free(stop: Handle);
    fn yuglemit_report_free(report: Handle);
    fn yuglemit_text_free(text: Handle);
}

/// A kind of handle, which is freed by a call of its own.
pub trait Kind {
    const FREE: unsafe extern "C" fn(Handle);
}

pub struct OfProgram;
pub struct OfInputs;
pub struct OfStop;
pub struct OfReport;
pub struct OfText;

impl Kind for OfProgram {
    const FREE: unsafe extern "C" fn(Handle) = yuglemit_program_free;
}

impl Kind for OfInputs {
    const FREE: unsafe extern "C" fn(Handle) = yuglemit_inputs_free;
}

impl Kind for OfStop {
    const FREE: unsafe extern "C" fn(Handle) = yuglemit_stop_free;
}

impl Kind for OfReport {
    const FREE: unsafe extern "C" fn(Handle) = yuglemit_report_free;
}

impl Kind for OfText {
    const FREE: unsafe extern "C" fn(Handle) = yuglemit_text_free;
}

/// Owns a handle, which begins empty. The cell makes it `!Sync`, except for the kinds below, so one thread at a time uses it.
pub struct Owner<K: Kind> {
    handle: UnsafeCell<Handle>,
    kind: PhantomData<K>,
}

// A handle may be made in one thread and used in another (yuglemit.h).
unsafe impl<K: Kind> Send for Owner<K> {}

// Once it is made, each call on such a handle has a copy of it, and only reads what it holds, as any number of threads may (yuglemit.h: it is `const`).
unsafe impl Sync for Owner<OfProgram> {}
unsafe impl Sync for Owner<OfReport> {}
unsafe impl Sync for Owner<OfStop> {}

impl<K: Kind> Owner<K> {
    pub fn new() -> Self {
        Owner { handle: UnsafeCell::new(Handle(std::ptr::null_mut())), kind: PhantomData }
    }

    pub fn at(&self) -> *mut Handle {
        self.handle.get()
    }

    /// Returns a copy of the handle, for a call that only reads it: the call may write the copy, and nothing that other threads read.
    pub fn seen(&self) -> Handle {
        // No call that changes the handle runs.
        unsafe { *self.handle.get() }
    }
}

impl<K: Kind> Drop for Owner<K> {
    fn drop(&mut self) {
        // The handle was made by a call of its kind, or is empty, and isn't used after this.
        unsafe { (K::FREE)(*self.handle.get()) };
    }
}

/// Returns the bytes of the text that a handle holds.
pub fn kept_text(text: &Owner<OfText>) -> Result<Vec<u8>, Error> {
    let mut length = 0;
    // Each pointer is a local's or the owner's own.
    done(unsafe { yuglemit_raw_text_length(&mut text.seen(), &mut length) })?;
    let mut bytes = vec![0; length];
    done(unsafe { yuglemit_raw_text_copy(&mut text.seen(), bytes.as_mut_ptr(), length) })?;
    Ok(bytes)
}

/// The codes of calls (`yuglemit_code` of yuglemit.h) that this crate can get.
pub mod code {
    pub const INPUT_COUNT: u8 = 201;
    pub const INPUT_TYPE: u8 = 202;
    pub const NO_ACTOR: u8 = 203;
    pub const NO_LIMIT: u8 = 204;
    pub const NO_MEMORY: u8 = 205;
    pub const ABOVE_CAP: u8 = 207;
    pub const NO_LAYOUT: u8 = 222;
    pub const NO_INDEX: u8 = 223;
    pub const NO_END: u8 = 227;
    pub const REJECTED: u8 = 229;
    pub const NO_ORDER: u8 = 230;
}

/// Returns the error of a call, if there is one.
pub fn done(code: u8) -> Result<(), Error> {
    match code {
        0 => Ok(()),
        code::NO_MEMORY => Err(Error::NoMemory),
        code::INPUT_COUNT => Err(Error::Run(RunError::InputCount)),
        code::INPUT_TYPE => Err(Error::Run(RunError::InputType)),
        code::NO_ACTOR => Err(Error::Run(RunError::NoActor)),
        code::NO_LIMIT => Err(Error::Run(RunError::Limit)),
        code::ABOVE_CAP => Err(Error::Run(RunError::AboveCap)),
        code::NO_LAYOUT => Err(Error::NoLayout),
        code::NO_INDEX => Err(Error::NoIndex),
        code::NO_END => Err(Error::NoEnd),
        code::NO_ORDER => Err(Error::NoOrder),
        _ => unreachable!("no call of this crate can return the code {code}"),
    }
}

// SPDX-License-Identifier: Apache-2.0
//! Yuglemit for Rust, over libyuglemit.a: programs that are loaded once and run many times.
//!
//! ```
//! use yuglemit::{End, Program, Value};
//!
//! let text = "\
//! proc control closed int write int
//! regs int int
//! GET v0 d0
//! DROPR d0
//! ADD v0 v0 v0 too_large
//! too_large:
//! STORE d1 v0
//! RET
//! ";
//! let program = Program::load(text)?;
//! let report = program.run(&[21.into()])?;
//! assert_eq!((report.end(), report.outputs()?), (End::Quiet, vec![Value::Int(42)]));
//! # Ok::<(), yuglemit::Error>(())
//! ```
//!
//! A [`Program`], a [`Report`] and a [`Stop`] may be sent to another thread, and any number of threads may use one at once. A call needs 64 KiB of
//! free stack.
mod error;
mod program;
mod raw;
mod report;
mod session;
mod stop;
mod value;

pub use error::{Error, Refused, RunError};
pub use program::{Bound, Bounds, Caps, EventOrder, Format, MOST_BYTES, MapKind, Mode, Options, Parameter, Procedure, Program};
pub use report::{End, Meter, Report};
pub use session::{Reply, explain, session, verify};
pub use stop::Stop;
pub use value::{Container, IntoScalar, Scalar, Type, Value};

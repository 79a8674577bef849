// SPDX-License-Identifier: Apache-2.0
use crate::Error;
use crate::raw::{self, OfStop, Owner, done};

/// Stops runs: give one to [`Options`](crate::Options), and raise it in another thread.
///
/// ```
/// use yuglemit::{End, Options, Program, Stop};
///
/// let endless = Program::load("proc control\nregs\nPUT 0 0 any\nRET\n")?;
/// let stop = Stop::new()?;
/// let mut options = Options::default();
/// options.stop = Some(&stop);
/// stop.raise();
/// let report = endless.run_with(&[], &options)?;
/// assert_eq!((report.end(), report.events()), (End::Stopped, 0));
/// # Ok::<(), yuglemit::Error>(())
/// ```
pub struct Stop {
    pub(crate) owner: Owner<OfStop>,
}

// Each pointer below is an owner's own, and the owners of a call are different ones.

impl Stop {
    /// Makes a flag, which isn't raised.
    pub fn new() -> Result<Stop, Error> {
        let owner = Owner::new();
        done(unsafe { raw::yuglemit_stop_new(owner.at()) })?;
        Ok(Stop { owner })
    }

    /// Makes another of the same flag.
    pub fn share(&self) -> Result<Stop, Error> {
        let owner = Owner::new();
        done(unsafe { raw::yuglemit_raw_stop_share(&mut self.owner.seen(), owner.at()) })?;
        Ok(Stop { owner })
    }

    /// Ends the runs that have the flag, and those that begin with it. A task is cut off within 65,536 of its instructions.
    pub fn raise(&self) {
        done(unsafe { raw::yuglemit_raw_stop_raise(&mut self.owner.seen()) }).expect("a flag can be raised");
    }

    /// Lets later runs go on.
    pub fn lower(&self) {
        done(unsafe { raw::yuglemit_raw_stop_lower(&mut self.owner.seen()) }).expect("a flag can be lowered");
    }
}

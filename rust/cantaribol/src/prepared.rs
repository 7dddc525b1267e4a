//! A design that was prepared for single clocks.

use std::fmt;

use cantaribol_sys::{LOG_ROOM, PLAN_SIZE};

use crate::design::Design;
use crate::refusal::Refusal;
use crate::running::Outcome;

/// A design that was prepared: its clocks cost what the clocks of a run cost,
/// since the file is not read again. It holds the plan that was made of that
/// design, which nobody else can reach or change, and room for the library
/// to work in.
///
/// ```
/// use cantaribol::{Design, Outcome, DISPLAY_ROOM, FATE_ROOM};
///
/// let file = b"RG\x05\0\0\0UMRL\x11\0\x02\x01\x0A\0\x01\x01\x04\0\
///              \x0A\0\0\0\x01\x01\0\0\0SC\x01\0";
/// let design = Design::read(file)?;
/// let mut prepared = design.prepare();
/// let mut state = design.start();
/// let (mut fates, mut displays) = ([0; FATE_ROOM], [0; DISPLAY_ROOM]);
/// let outcome = prepared.clock(&mut state, &mut fates, &mut displays)?;
/// assert_eq!(outcome, Outcome::Fired { displays: 0 });
/// assert_eq!(state[0], 6);
/// # Ok::<(), cantaribol::Refusal>(())
/// ```
#[derive(Clone)]
pub struct Prepared<'a> {
    design: &'a Design<'a>,
    plan: Box<[u16]>,
    log: Box<[u64]>,
}

impl Design<'_> {
    /// The design with its plan, for many single clocks on lent buffers.
    pub fn prepare(&self) -> Prepared<'_> {
        let mut plan = vec![0; PLAN_SIZE].into_boxed_slice();
        let answer = cantaribol_sys::prepare(self.file(), &mut plan);
        assert_eq!(answer, 0, "a design that reads, and room for its plan");
        Prepared {
            design: self,
            plan,
            log: vec![0; LOG_ROOM].into_boxed_slice(),
        }
    }
}

impl<'a> Prepared<'a> {
    /// The design that was prepared.
    pub fn design(&self) -> &'a Design<'a> {
        self.design
    }

    /// One clock on lent buffers, as [`Design::clock`].
    pub fn clock(
        &mut self,
        state: &mut [i32],
        fates: &mut [u8],
        displays: &mut [i32],
    ) -> Result<Outcome, Refusal> {
        let file = self.design.file();
        let (plan, log) = (&self.plan, &mut self.log);
        Outcome::unpacked(cantaribol_sys::tick(
            file, plan, state, fates, displays, log,
        ))
    }
}

/// The design alone: the plan follows from it, and the log is of no account.
impl fmt::Debug for Prepared<'_> {
    fn fmt(&self, out: &mut fmt::Formatter<'_>) -> fmt::Result {
        out.debug_struct("Prepared")
            .field("design", self.design)
            .finish_non_exhaustive()
    }
}

//! One run: every call goes to both sides, and the first on which they do not
//! agree ends it.

use std::fmt;

use second::generator::Random;

use crate::call::{Call, Outcome};
use crate::lent::Lender;
use crate::tally::Tally;
use crate::{by_second, by_surface, by_wrapper, rules};

/// A call on which something is wrong.
pub struct Disagreement {
    what: String,
    call: Call,
    surface: Option<Outcome>,
    second: Outcome,
}

impl fmt::Display for Disagreement {
    fn fmt(&self, f: &mut fmt::Formatter) -> fmt::Result {
        writeln!(f, "{}", self.what)?;
        write!(f, "call: {}", self.call)?;
        match &self.surface {
            Some(outcome) => write!(f, "surface: {outcome}")?,
            None => writeln!(f, "surface: not shown")?,
        }
        write!(f, "second: {}", self.second)
    }
}

pub type Checked<T> = Result<T, Box<Disagreement>>;

pub struct Run {
    pub random: Random,
    pub tally: Tally,
    lender: Lender,
}

impl Run {
    pub fn new(seed: u64, tight: bool) -> Run {
        Run { random: Random::new(seed), tally: Tally::default(), lender: Lender::new(seed, tight) }
    }

    /// What both sides make of a call.
    pub fn check(&mut self, call: &Call) -> Checked<Outcome> {
        let second = by_second::outcome(call);
        let wrong = |what: &str, surface, second| {
            let (what, call) = (what.to_string(), call.clone());
            Err(Box::new(Disagreement { what, call, surface, second }))
        };
        let surface = match by_surface::outcome(&mut self.lender, call) {
            Ok(outcome) => outcome,
            Err(what) => return wrong(&what, None, second),
        };
        if surface.answer != second.answer {
            return wrong("the answers differ", Some(surface), second);
        }
        if surface != second {
            return wrong("the buffers differ at exit", Some(surface), second);
        }
        if let Err(what) = rules::check(call, &surface) {
            return wrong(&what, Some(surface), second);
        }
        if surface != by_wrapper::outcome(call) {
            return wrong("the wrapper says otherwise", Some(surface), second);
        }
        self.tally.answered(&surface);
        Ok(surface)
    }

    /// Checks a call whose outcome is also known without either side.
    pub fn check_known(&mut self, call: &Call, known: &Outcome, why: &str) -> Checked<()> {
        let outcome = self.check(call)?;
        let why = format!("{why}, so the answer is {:?}", known.answer);
        self.known(outcome == *known, call, &why)
    }

    /// What must hold of a call on which both sides agree.
    pub fn known(&self, holds: bool, call: &Call, why: &str) -> Checked<()> {
        if holds {
            return Ok(());
        }
        let what = format!("the two agree, and yet it must hold: {why}");
        let second = by_second::outcome(call);
        Err(Box::new(Disagreement { what, call: call.clone(), surface: None, second }))
    }
}

//! The two sides with the same bytes: a call is done on both, and every field
//! and byte is compared.

use crate::call::Call;
use crate::clock::own_time;
use crate::subject::{Mirror, Subject};
use crate::tally::Tally;
use oracle::{walk, ScriptedFlash, Session};
use outcome::{Outcome, Space, State, PENDING};
use std::time::Duration;

/// Numbers that no region has.
pub const UNTRUE: Space = Space { used: 1 << 40, free: 7, takes: u64::MAX };

/// What a call took on either side, in processor time.
#[derive(Clone, Copy, Default)]
pub struct Spent {
    pub original: Duration,
    pub subject: Duration,
}

pub struct Bench {
    pub subject: Box<dyn Subject>,
    session: Session,
    region: Vec<u8>,
    script: Vec<u8>,
    state: State,
    /// What the last call took.
    pub spent: Spent,
    pub tally: Tally,
}

impl Bench {
    pub fn new(subject: Box<dyn Subject>) -> Self {
        Bench {
            subject,
            session: Session::new(Vec::new()),
            region: Vec::new(),
            script: Vec::new(),
            state: State::default(),
            spent: Spent::default(),
            tally: Tally::default(),
        }
    }

    /// Another medium, not mounted.
    pub fn insert(&mut self, region: &[u8], script: &[u8]) {
        self.session = Session::new(region.to_vec());
        self.region = region.to_vec();
        self.state = State { health: PENDING, ..State::default() };
        self.set_script(script, 0);
    }

    /// Another medium, and a store on it in any state at all but for the room,
    /// which is the medium's.
    pub fn stand(&mut self, region: &[u8], script: &[u8], state: State) {
        self.region = region.to_vec();
        self.script = script.to_vec();
        self.state = State { space: walk(region), ..state };
        let flash = ScriptedFlash {
            region: region.to_vec(),
            script: script.to_vec(),
            at: state.at,
            cut: state.cut != 0,
            calls: 0,
        };
        self.session = Session::with_health(state.health, flash);
    }

    pub fn set_script(&mut self, script: &[u8], at: u64) {
        self.session.set_script(script, at);
        self.script = script.to_vec();
        self.state.at = at;
    }

    /// Change the bytes behind the store's back. The room in the state is then
    /// the new bytes' own: it is true only where nobody else has written.
    pub fn set_region(&mut self, region: &[u8]) {
        self.session.with_flash(|flash| flash.region = region.to_vec());
        self.region = region.to_vec();
        self.state.space = walk(region);
    }

    pub fn region(&self) -> &[u8] {
        &self.region
    }

    pub fn at(&self) -> u64 {
        self.state.at
    }

    pub fn is_mounted(&self) -> bool {
        self.session.is_mounted()
    }

    pub fn run(&mut self, call: &Call) -> Outcome {
        let before = (self.region.clone(), self.state);
        let mut wanted_out = call.output();
        let mut out = call.output();
        let began = own_time();
        let wanted = call.on_original(&mut self.session, &mut wanted_out);
        let between = own_time();
        let got = call.on_subject(
            self.subject.as_ref(),
            &mut self.region,
            &self.script,
            self.state,
            &mut out,
        );
        self.spent = Spent { original: between - began, subject: own_time() - between };
        let wanted = Outcome { space: self.session.space(), ..wanted };
        self.tally.count(call.kind(), before.1.health, &wanted, self.spent);
        let mut wrong = Vec::new();
        if wanted != got {
            wrong.push(format!("original {wanted:?}\nsubject  {got:?}"));
        }
        self.session.with_flash(|flash| {
            wrong.extend(first_difference("region", &flash.region, &self.region));
        });
        wrong.extend(first_difference("output", &wanted_out, &out));
        let space = self.subject.space(state_after(&got));
        if space != wanted.space {
            wrong.push(format!("walk     {:?}\nquestion {space:?}", wanted.space));
        }
        if !wrong.is_empty() {
            let script = &self.script;
            self.tally.difference(|| describe(call, &before.0, script, before.1, &wrong));
            // Go on from the original, so that one slip is told once.
            self.session.with_flash(|flash| self.region.clone_from(&flash.region));
        }
        self.state = state_after(&wanted);
        wanted
    }

    /// The call from here with untrue numbers in the state, on copies. The
    /// original keeps no numbers, so the subject is held beside the mirror.
    /// `effect`: whether the numbers must be true after it, where that is known.
    pub fn run_untrue(&mut self, call: &Call, effect: Option<bool>) {
        let state = State { space: UNTRUE, ..self.state };
        let (mut wanted, wanted_region, wanted_out) = self.on_copy(&Mirror, call, state);
        let (got, region, out) = self.on_copy(self.subject.as_ref(), call, state);
        match effect {
            Some(true) => wanted.space = walk(&wanted_region),
            Some(false) => wanted.space = UNTRUE,
            None => {}
        }
        self.tally.untrue += 1;
        let mut wrong = Vec::new();
        if wanted != got {
            wrong.push(format!("mirror   {wanted:?}\nsubject  {got:?}"));
        }
        wrong.extend(first_difference("region", &wanted_region, &region));
        wrong.extend(first_difference("output", &wanted_out, &out));
        let space = self.subject.space(state);
        if space != UNTRUE {
            wrong.push(format!("state    {UNTRUE:?}\nquestion {space:?}"));
        }
        if !wrong.is_empty() {
            let (region, script) = (&self.region, &self.script);
            self.tally.difference(|| describe(call, region, script, state, &wrong));
        }
    }

    /// What a call says, and region and output after it.
    fn on_copy(
        &self,
        subject: &dyn Subject,
        call: &Call,
        state: State,
    ) -> (Outcome, Vec<u8>, Vec<u8>) {
        let (mut region, mut out) = (self.region.clone(), call.output());
        let outcome = call.on_subject(subject, &mut region, &self.script, state, &mut out);
        (outcome, region, out)
    }
}

fn state_after(outcome: &Outcome) -> State {
    let Outcome { health, at, cut, space, .. } = *outcome;
    State { health, at, cut, space }
}

fn first_difference(what: &str, wanted: &[u8], got: &[u8]) -> Option<String> {
    if wanted == got {
        return None;
    }
    let at = wanted.iter().zip(got).take_while(|(a, b)| a == b).count();
    let part = |bytes: &[u8]| hex(&bytes[at..bytes.len().min(at + 32)]);
    Some(format!("{what} differs from byte {at}: wanted {}, subject {}", part(wanted), part(got)))
}

fn describe(call: &Call, region: &[u8], script: &[u8], state: State, wrong: &[String]) -> String {
    let used = region.iter().rposition(|byte| *byte != 0xff);
    let used = &region[..used.map_or(0, |last| last + 1)];
    format!(
        "call {call:?}\nstate {state:?}\nscript {}\nregion of {} bytes: {}\n{}\n",
        hex(script),
        region.len(),
        hex(used),
        wrong.join("\n")
    )
}

pub fn hex(bytes: &[u8]) -> String {
    bytes.iter().map(|byte| format!("{byte:02x}")).collect()
}

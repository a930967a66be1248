//! A script replayed: what each call of a window did, and the house that the script leaves.

use crate::forms::{lines, Form};
use crate::house::{answer_line, Answer, Given, House};
use wellcherry::{Progress, CLIENTS};

/// The stage at which a commit has just been made.
const MADE: u32 = 12;

/// A commit, as the call that made it left it.
pub struct Commit {
    /// Its number.
    pub number: u32,
    /// The cells that it wrote.
    pub cells: Vec<u32>,
}

/// A call, and what it left of the client that it names.
pub struct Step {
    /// The call.
    pub form: Form,
    /// Its answer.
    pub answer: Answer,
    /// The client's stage afterwards, none where it is closed.
    pub stage: Option<u32>,
    /// The client's waiting list afterwards.
    pub waits: u64,
    /// The commit that the call made.
    pub made: Option<Commit>,
}

/// A script replayed, with the steps of its last calls.
pub struct Run {
    /// How many calls the script has.
    pub calls: usize,
    /// The clients that are open when the steps begin, with their stages.
    pub before: Vec<(u32, u32)>,
    /// The last calls.
    pub steps: Vec<Step>,
    /// By client, the number of the last call that names it.
    pub heard: [usize; CLIENTS],
    /// The house after the last call.
    pub house: House,
}

impl Run {
    /// Replays a script, keeping the steps of the last `kept` calls.
    pub fn of(script: &[u8], kept: usize) -> Run {
        let calls = lines(script).count();
        let (before, steps) = (Vec::new(), Vec::new());
        let mut run = Run { calls, before, steps, heard: [0; CLIENTS], house: House::NONE };
        let mut forms = lines(script).map(Form::of).zip(1..);
        for (form, number) in forms.by_ref().take(calls.saturating_sub(kept)) {
            run.take(form, number);
        }
        run.before = run.house.open();
        for (form, number) in forms {
            let step = run.take(form, number);
            run.steps.push(step);
        }
        run
    }

    /// Takes the call of a number.
    fn take(&mut self, form: Form, number: usize) -> Step {
        let client = form.client().map(|client| client as usize);
        if let Some(heard) = client.and_then(|client| self.heard.get_mut(client)) {
            *heard = number;
        }
        Step::taken(&mut self.house, form)
    }
}

impl Step {
    fn taken(house: &mut House, form: Form) -> Step {
        let answer = house.answer(&form);
        let open = form.client().and_then(|client| Some((client, house.stage(client)?)));
        let made = open.filter(|_| answer == Ok(Given::Came(Progress::Stage(MADE))));
        Step {
            stage: open.map(|(_, stage)| stage),
            waits: open.map_or(0, |(client, _)| house.waits(client)),
            made: made.map(|(client, _)| Commit {
                number: house.last_commit(),
                cells: house.cells(client),
            }),
            form,
            answer,
        }
    }

    /// The line that the step program prints for it.
    pub fn line(&self) -> String {
        answer_line(&self.form, &self.answer)
    }
}

/// What the step program prints for a script.
pub fn answers(script: &[u8]) -> String {
    let mut house = House::NONE;
    let forms = lines(script).map(Form::of);
    forms.map(|form| answer_line(&form, &house.answer(&form)) + "\n").collect()
}

//! One file through every function of the library, its buffers at one edge.

use std::io;

use cantaribol_sys::answer::{is_reason, number};
use cantaribol_sys::{Library, DISPLAY_ROOM, FATE_ROOM, FILE_LIMIT, LOG_ROOM, PLAN_SIZE};
use generator::random::Random;
use generator::running::states;

use crate::guard::{Edge, Pages};
use crate::judge::{self, ensure, Held, Judged};
use crate::marks::Marks;
use crate::reached::Reached;

/// The pages of the state, the fates and the displays, of a plan and a log.
struct Buffers {
    state: Pages,
    fates: Pages,
    displays: Pages,
    plan: Pages,
    log: Pages,
}

/// Where a plan has the count of instances.
const PLAN_INSTANCES: usize = 1024;

/// The pages of the file and of the buffers; they serve all files.
pub struct Desk {
    file: Pages,
    buffers: Buffers,
}

impl Desk {
    /// Two files of the longest that reads may be joined.
    pub fn new() -> io::Result<Self> {
        Ok(Desk {
            file: Pages::new(3 * FILE_LIMIT)?,
            buffers: Buffers {
                state: Pages::new(4 * 256)?,
                fates: Pages::new(DISPLAY_ROOM)?,
                displays: Pages::new(4 * (DISPLAY_ROOM + 1))?,
                plan: Pages::new(2 * (PLAN_SIZE + 1))?,
                log: Pages::new(8 * LOG_ROOM)?,
            },
        })
    }
}

/// The file with its buffers at one edge, then at the other. Where they
/// stand may make no difference to any answer or content.
pub fn both_edges(
    library: &dyn Library,
    desk: &mut Desk,
    file: &[u8],
    seed: u64,
    reached: &mut Reached,
) -> Judged {
    let end = one_edge(library, desk, file, Edge::End, seed, reached)?;
    // Each file is counted once.
    let start = one_edge(
        library,
        desk,
        file,
        Edge::Start,
        seed,
        &mut Reached::default(),
    )?;
    reached.files += 1;
    ensure(end == start, || "answers differ by edge".to_string())
}

fn one_edge(
    library: &dyn Library,
    desk: &mut Desk,
    file: &[u8],
    edge: Edge,
    seed: u64,
    reached: &mut Reached,
) -> Judged<Vec<u64>> {
    let buffers = &mut desk.buffers;
    let work = |file: &[u8]| {
        let mut trial = Trial {
            library,
            file,
            edge,
            buffers,
            random: Random::new(seed),
            reached,
            refused: library.read(file),
            marks: Marks::default(),
            passes: false,
            told: Vec::new(),
        };
        trial.all()?;
        Ok(trial.told)
    };
    let done = desk.file.sealed(file, edge, work);
    done.map_err(|error| error.to_string())?
}

struct Trial<'a> {
    library: &'a dyn Library,
    file: &'a [u8],
    edge: Edge,
    buffers: &'a mut Buffers,
    random: Random,
    reached: &'a mut Reached,
    /// What reading answered: 0 for a design.
    refused: u64,
    /// The records of a design.
    marks: Marks,
    passes: bool,
    /// Answers and contents, to be the same at both edges.
    told: Vec<u64>,
}

impl Trial<'_> {
    fn all(&mut self) -> Judged {
        self.reading()?;
        self.parts()?;
        self.check()?;
        let instances = self.marks.starts.len();
        self.start(instances)?;
        let wrong = self.wrong_length();
        self.start(wrong)?;
        self.clocks(instances)?;
        self.wrong_rooms()?;
        self.run(wrong, 2)?;
        let n = self.random.pick(&[0, 1, 2, 3, 5]);
        self.run(instances, n)
    }

    fn note(&mut self, answer: u64) {
        self.told.push(answer);
        self.reached.calls += 1;
    }

    /// An answer that may be a refusal.
    fn tell(&mut self, answer: u64) {
        self.note(answer);
        self.reached.refusal(answer);
    }

    /// The contents as one number, which the answers stand beside.
    fn tell_words(&mut self, words: impl Iterator<Item = i32>) {
        let sum = words.fold(0u64, |sum, word| {
            (sum ^ u64::from(word as u32))
                .wrapping_mul(0x0100_0000_01B3)
                .rotate_left(5)
        });
        self.told.push(sum);
    }

    fn reading(&mut self) -> Judged {
        judge::reading(self.file.len(), self.refused)?;
        self.tell(self.refused);
        if self.refused == 0 {
            let records = Marks::of(self.file);
            self.marks = records.ok_or("read: its records do not fill the file")?;
            judge::limits(&self.marks)?;
        }
        let counts = self.library.counts(self.file);
        self.note(counts);
        ensure(counts == self.marks.counts(), || {
            format!("counts: {counts}")
        })
    }

    /// Parts of numbers that name one, and of others.
    fn parts(&mut self) -> Judged {
        for _ in 0..3 {
            let rule = match self.random.below(8) {
                0 => self.random.pick(&[63, 64, 255, 256, 1 << 32, u64::MAX]),
                _ => self.random.below(self.marks.rules.len() + 1) as u64,
            };
            let part = self.library.rule_part(self.file, rule);
            self.note(part);
            let right = part == self.marks.rule_part(rule);
            ensure(right, || format!("rule {rule}: part {part}"))?;
            let (instance, method) = self.some_method();
            let part = self.library.method_part(self.file, instance, method);
            self.note(part);
            let right = part == self.marks.method_part(instance, method);
            ensure(right, || format!("method {instance} {method}: part {part}"))?;
        }
        Ok(())
    }

    fn some_method(&mut self) -> (u64, u64) {
        const EDGES: [u64; 7] = [0, 1, 63, 64, 128, 1 << 32, u64::MAX];
        let instance = match self.random.below(4) {
            0 => self.random.pick(&EDGES),
            _ => match self.marks.methods.len() {
                0 => self.random.below(self.marks.starts.len() + 1) as u64,
                many => self.marks.methods[self.random.below(many)].0 as u64,
            },
        };
        let method = match self.random.below(8) {
            0 => self.random.pick(&EDGES),
            _ => self.random.below(4) as u64,
        };
        (instance, method)
    }

    fn check(&mut self) -> Judged {
        let answer = self.library.check(self.file);
        self.tell(answer);
        if self.refused != 0 {
            return ensure(answer == self.refused, || format!("check: {answer}"));
        }
        self.reached.check(answer);
        self.passes = answer == 0;
        judge::check(self.file, &self.marks, answer)
    }

    /// The first refusal that document 01 gives for buffers of these lengths.
    fn refusal(&self, state: usize, rooms: Option<(usize, usize)>) -> u64 {
        let (fates, displays) = rooms.unwrap_or((FATE_ROOM, DISPLAY_ROOM));
        match () {
            () if self.refused != 0 => self.refused,
            () if state != self.marks.starts.len() => 10,
            () if fates < FATE_ROOM => 11,
            () if displays < DISPLAY_ROOM => 12,
            () => 0,
        }
    }

    fn wrong_length(&mut self) -> usize {
        let instances = self.marks.starts.len();
        let wrong = [0, instances.saturating_sub(1), instances + 1, 64, 65, 200];
        self.random.pick(&wrong)
    }

    fn start(&mut self, length: usize) -> Judged {
        let before = states::state(&mut self.random, length);
        let state = self.buffers.state.lend(&before, self.edge);
        let answer = self.library.start(self.file, state);
        let after = state.to_vec();
        self.tell(answer);
        self.tell_words(after.iter().copied());
        let refusal = self.refusal(length, None);
        ensure(answer == refusal, || {
            format!("start: {answer} and not {refusal}")
        })?;
        match refusal {
            0 => judge::started(&self.marks, &before, &after),
            _ => ensure(before == after, || {
                "start: refused, but written".to_string()
            }),
        }
    }

    fn clocks(&mut self, instances: usize) -> Judged {
        let mut state = states::state(&mut self.random, instances);
        for _ in 0..self.random.within(1, 3) {
            // The least room, most of the time: what is past it is guarded.
            let rooms = match self.random.below(4) {
                0 => (FATE_ROOM + 1, DISPLAY_ROOM + 1),
                _ => (FATE_ROOM, DISPLAY_ROOM),
            };
            self.clock(&mut state, rooms)?;
            states::overwrite(&mut self.random, &mut state);
        }
        Ok(())
    }

    /// Several lengths may be wrong at once.
    fn wrong_rooms(&mut self) -> Judged {
        let length = match self.random.in_hundred(70) {
            true => self.marks.starts.len(),
            false => self.wrong_length(),
        };
        let fates = self.random.pick(&[0, 1, 63, 63, 64, 64, 64, 4096]);
        let displays = self.random.pick(&[0, 1, 64, 4095, 4096, 4097]);
        let mut state = states::state(&mut self.random, length);
        self.clock(&mut state, (fates, displays)).map(|_| ())
    }

    fn clock(&mut self, state: &mut Vec<i32>, rooms: (usize, usize)) -> Judged<u64> {
        let before = Held {
            state: state.clone(),
            fates: (0..rooms.0).map(|at| 7 + (at % 100) as u8).collect(),
            displays: (0..rooms.1).map(|at| -7 - at as i32).collect(),
        };
        let (answer, after) = self.lend_for_clock(&before);
        self.ticked(&before, answer, &after)?;
        self.tell(answer);
        let made = self.marks.schedule.len().min(rooms.0);
        self.tell_words(after.fates[..made].iter().copied().map(i32::from));
        self.tell_words(after.state.iter().chain(&after.displays).copied());
        let refusal = self.refusal(state.len(), Some(rooms));
        if refusal != 0 {
            ensure(answer == refusal, || {
                format!("clock: {answer} and not {refusal}")
            })?;
            ensure(before == after, || {
                "clock: refused, but written".to_string()
            })?;
            return Ok(answer);
        }
        judge::clock(&self.marks, answer, &before, &after)?;
        self.unstuck(answer)?;
        self.reached
            .clock(answer, &after.fates[..self.marks.schedule.len()]);
        *state = after.state;
        Ok(answer)
    }

    fn lend_for_clock(&mut self, before: &Held) -> (u64, Held) {
        let state = self.buffers.state.lend(&before.state, self.edge);
        let fates = self.buffers.fates.lend(&before.fates, self.edge);
        let displays = self.buffers.displays.lend(&before.displays, self.edge);
        let answer = self.library.clock(self.file, state, fates, displays);
        let after = Held {
            state: state.to_vec(),
            fates: fates.to_vec(),
            displays: displays.to_vec(),
        };
        (answer, after)
    }

    /// A tick by the plan is that clock; a refused file fills in no plan.
    fn ticked(&mut self, before: &Held, answer: u64, after: &Held) -> Judged {
        let blank = vec![9; PLAN_SIZE + self.random.below(2)];
        let lent = self.buffers.plan.lend(&blank, self.edge);
        let prepared = self.library.prepare(self.file, lent);
        let plan = lent.to_vec();
        ensure(prepared == self.refused, || {
            format!("prepare: {prepared} and not {}", self.refused)
        })?;
        if prepared != 0 {
            return ensure(plan == blank, || {
                "prepare: refused, but written".to_string()
            });
        }
        ensure(plan[PLAN_SIZE..] == blank[PLAN_SIZE..], || {
            "prepare: written past the plan".to_string()
        })?;
        let (ticked, held) = self.lend_for_tick(&plan, LOG_ROOM, before);
        ensure(ticked == answer && held == *after, || {
            format!("tick: {ticked}, {held:?} and not {answer}, {after:?}")
        })?;
        self.short_plans(&plan, before)?;
        self.foreign_plan(plan, before)
    }

    /// 13 comes before 14, and both before the other lengths.
    fn short_plans(&mut self, plan: &[u16], before: &Held) -> Judged {
        let lent = self.buffers.plan.lend(&plan[..PLAN_SIZE - 1], self.edge);
        let prepared = self.library.prepare(self.file, lent);
        ensure(prepared == 13 && lent == &plan[..PLAN_SIZE - 1], || {
            format!("prepare in a short plan: {prepared}")
        })?;
        for (plan, log, wanted) in [
            (&plan[..PLAN_SIZE - 1], LOG_ROOM - 1, 13),
            (plan, LOG_ROOM - 1, 14),
        ] {
            let (ticked, held) = self.lend_for_tick(plan, log, before);
            ensure(ticked == wanted && held == *before, || {
                format!("tick: {ticked} and not {wanted}")
            })?;
        }
        Ok(())
    }

    /// Any numbers for a plan: the call comes back, and says one of its answers.
    fn foreign_plan(&mut self, mut plan: Vec<u16>, before: &Held) -> Judged {
        for _ in 0..self.random.within(1, 40) {
            let at = self.random.below(plan.len());
            plan[at] = self.random.below(65_536) as u16;
        }
        plan[PLAN_INSTANCES] = before.state.len() as u16;
        let (ticked, _) = self.lend_for_tick(&plan, LOG_ROOM, before);
        ensure(matches!(ticked & 255, 0 | 11 | 12 | 21..=28), || {
            format!("tick by a foreign plan: {ticked}")
        })
    }

    fn lend_for_tick(&mut self, plan: &[u16], log: usize, before: &Held) -> (u64, Held) {
        let plan = self.buffers.plan.lend(plan, self.edge);
        let log = self.buffers.log.lend(&vec![u64::MAX; log], self.edge);
        let state = self.buffers.state.lend(&before.state, self.edge);
        let fates = self.buffers.fates.lend(&before.fates, self.edge);
        let displays = self.buffers.displays.lend(&before.displays, self.edge);
        let answer = self
            .library
            .tick(self.file, plan, state, fates, displays, log);
        let after = Held {
            state: state.to_vec(),
            fates: fates.to_vec(),
            displays: displays.to_vec(),
        };
        (answer, after)
    }

    /// What passes the check is never stuck.
    fn unstuck(&self, answer: u64) -> Judged {
        let stuck = self.passes && is_reason(answer);
        ensure(!stuck, || format!("passes, but is stuck: {answer}"))
    }

    fn run(&mut self, length: usize, n: u32) -> Judged {
        let before = states::state(&mut self.random, length);
        let state = self.buffers.state.lend(&before, self.edge);
        let answer = self.library.run(self.file, state, n);
        let after = state.to_vec();
        self.tell(answer);
        self.tell_words(after.iter().copied());
        let refusal = self.refusal(length, None);
        if refusal != 0 {
            ensure(answer == refusal, || {
                format!("run: {answer} and not {refusal}")
            })?;
            return ensure(before == after, || "run: refused, but written".to_string());
        }
        self.reached.run(answer);
        self.unstuck(answer)?;
        let mut state = before;
        let wanted = self.clock_by_clock(&mut state, n)?;
        ensure(answer == wanted && state == after, || {
            format!("run of {n}: {answer}, {after:?} and not {wanted}, {state:?}")
        })
    }

    /// What a run answers, put together from single clocks.
    fn clock_by_clock(&mut self, state: &mut Vec<i32>, n: u32) -> Judged<u64> {
        for count in 0..u64::from(n) {
            let answer = self.clock(state, (FATE_ROOM, DISPLAY_ROOM))?;
            match number(answer) {
                0 if answer & 256 != 0 => {}
                0 => return Ok(100 + 65_536 * count),
                _ => return Ok(answer % 65_536 + 65_536 * count),
            }
        }
        Ok(65_536 * u64::from(n))
    }
}

#[cfg(test)]
mod tests;

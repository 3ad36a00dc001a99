//! Plain checkers that walk the schedule slot by slot: one as the paper tells it, pass by pass, and one in a single loop.

/// Table entry of a slot that serves no job.
pub const IDLE: u8 = 255;

#[derive(Clone, Copy, Debug)]
pub struct Task {
    pub offset: u64,
    pub run: u64,
    pub deadline: u64,
    pub period: u64,
}

/// In the order of the library's numbers.
#[derive(Clone, Copy, Debug, PartialEq, Eq)]
pub enum Policy {
    ListOrder,
    RateMonotonic,
    DeadlineMonotonic,
    EarliestDeadlineFirst,
}

#[derive(Clone, Copy, Debug, PartialEq, Eq)]
pub enum Answer {
    Refused { number: u64, task: usize },
    Overloaded { load: u64, hyperperiod: u64 },
    Missed { task: usize, instant: u64 },
    Feasible { frame: Frame, counts: Counts },
}

/// The numbers that say how far to look.
#[derive(Clone, Copy, Debug, PartialEq, Eq)]
pub struct Frame {
    pub largest_offset: u64,
    pub hyperperiod: u64,
    pub load: u64,
}

#[derive(Clone, Copy, Debug, Default, PartialEq, Eq)]
pub struct Counts {
    pub idle_startup: u64,
    pub idle_cycle: u64,
    pub preemptions_startup: u64,
    pub preemptions_cycle: u64,
}

/// What is known of one task while walking: its last released job.
struct Job {
    next_release: u64,
    due: u64,
    left: u64,
    key: Key,
}

/// Two numbers: the second is looked at where the first are equal.
type Key = (u64, u64);

impl Task {
    pub const MOST_TASKS: usize = 16;
    pub const LONGEST_PERIOD: u64 = 16_384;
    pub const LARGEST_OFFSET: u64 = 16_384;
    pub const LONGEST_HYPERPERIOD: u64 = 16_384;

    /// The number of the first rule that the task breaks, if any.
    fn broken_rule(&self) -> Option<u64> {
        if self.period == 0 || self.period > Task::LONGEST_PERIOD {
            Some(2)
        } else if self.run == 0 || self.run > self.deadline {
            Some(3)
        } else if self.deadline > self.period {
            Some(4)
        } else if self.offset > Task::LARGEST_OFFSET {
            Some(5)
        } else {
            None
        }
    }
}

impl Policy {
    /// The smaller key is served first; equal keys go by task number.
    fn key(self, number: usize, task: &Task, release: u64) -> Key {
        match self {
            Policy::ListOrder => (number as u64, 0),
            Policy::RateMonotonic => (task.period, 0),
            Policy::DeadlineMonotonic => (task.deadline, 0),
            Policy::EarliestDeadlineFirst => (release + task.deadline, release),
        }
    }
}

impl Frame {
    fn cycle_start(&self) -> u64 {
        self.largest_offset + self.hyperperiod
    }

    pub fn end(&self) -> u64 {
        self.cycle_start() + self.hyperperiod
    }
}

impl Job {
    /// Before the first release nothing is owed.
    fn before_first(task: &Task) -> Job {
        Job {
            next_release: task.offset,
            due: 0,
            left: 0,
            key: (0, 0),
        }
    }

    fn is_ready(&self) -> bool {
        self.left > 0
    }

    fn misses_at(&self, instant: u64) -> bool {
        self.is_ready() && self.due == instant
    }

    fn release(&mut self, policy: Policy, number: usize, task: &Task, instant: u64) {
        self.next_release = instant + task.period;
        self.due = instant + task.deadline;
        self.left = task.run;
        self.key = policy.key(number, task, instant);
    }
}

/// Misses, releases and the choice at an instant: the task that misses, or the one that is served.
trait Choose: Fn(&mut [Job], &[Task], Policy, u64) -> Result<Option<usize>, usize> {}

impl<F: Fn(&mut [Job], &[Task], Policy, u64) -> Result<Option<usize>, usize>> Choose for F {}

/// At each instant a pass for the misses, one for the releases and one for the choice.
#[inline(never)]
#[unsafe(no_mangle)]
pub fn plain_passes(
    tasks: &[Task],
    policy: Policy,
    startup: &mut [u8],
    cycle: &mut [u8],
) -> Answer {
    check(by_passes, tasks, policy, startup, cycle)
}

/// At each instant one loop over the tasks, for all three.
#[inline(never)]
#[unsafe(no_mangle)]
pub fn plain_loop(tasks: &[Task], policy: Policy, startup: &mut [u8], cycle: &mut [u8]) -> Answer {
    check(by_loop, tasks, policy, startup, cycle)
}

/// Checks the list, then walks the schedule.
#[inline(always)]
fn check(
    choose: impl Choose,
    tasks: &[Task],
    policy: Policy,
    startup: &mut [u8],
    cycle: &mut [u8],
) -> Answer {
    let frame = match frame_of(tasks) {
        Ok(frame) => frame,
        Err(refused) => return refused,
    };
    if (startup.len() as u64) < frame.cycle_start() {
        return Answer::Refused { number: 7, task: 0 };
    }
    if (cycle.len() as u64) < frame.hyperperiod {
        return Answer::Refused { number: 8, task: 0 };
    }
    if frame.load > frame.hyperperiod {
        return Answer::Overloaded {
            load: frame.load,
            hyperperiod: frame.hyperperiod,
        };
    }
    walk(choose, tasks, policy, frame, startup, cycle)
}

fn frame_of(tasks: &[Task]) -> Result<Frame, Answer> {
    if tasks.is_empty() || tasks.len() > Task::MOST_TASKS {
        return Err(Answer::Refused { number: 1, task: 0 });
    }
    for (task, entry) in tasks.iter().enumerate() {
        if let Some(number) = entry.broken_rule() {
            return Err(Answer::Refused { number, task });
        }
    }
    let hyperperiod = hyperperiod_of(tasks).ok_or(Answer::Refused { number: 6, task: 0 })?;
    Ok(Frame {
        largest_offset: tasks.iter().map(|task| task.offset).max().unwrap_or(0),
        hyperperiod,
        load: tasks
            .iter()
            .map(|task| task.run * (hyperperiod / task.period))
            .sum(),
    })
}

/// The least common multiple of all periods; none if it is above the limit.
fn hyperperiod_of(tasks: &[Task]) -> Option<u64> {
    let mut multiple = 1;
    for task in tasks {
        // Both numbers are within the limit here, so the product can't wrap.
        multiple = multiple / gcd(multiple, task.period) * task.period;
        if multiple > Task::LONGEST_HYPERPERIOD {
            return None;
        }
    }
    Some(multiple)
}

fn gcd(a: u64, b: u64) -> u64 {
    if b == 0 { a } else { gcd(b, a % b) }
}

/// Walks all slots up to the one after the tables, which decides the last preemption.
#[inline(always)]
fn walk(
    choose: impl Choose,
    tasks: &[Task],
    policy: Policy,
    frame: Frame,
    startup: &mut [u8],
    cycle: &mut [u8],
) -> Answer {
    let mut jobs: Vec<Job> = tasks.iter().map(Job::before_first).collect();
    let mut counts = Counts::default();
    let mut last_served = None;
    for instant in 0..=frame.end() {
        // Asked before the releases: a finished job's task may get a new one now.
        let unfinished = last_served.filter(|&number: &usize| jobs[number].is_ready());
        let served = match choose(&mut jobs, tasks, policy, instant) {
            Ok(served) => served,
            Err(task) => return Answer::Missed { task, instant },
        };
        if unfinished.is_some() && served != unfinished {
            counts.note_preemption(instant, &frame);
        }
        if let Some(number) = served {
            jobs[number].left -= 1;
        }
        counts.note_slot(instant, served, &frame, startup, cycle);
        last_served = served;
    }
    Answer::Feasible { frame, counts }
}

#[inline(always)]
fn by_passes(
    jobs: &mut [Job],
    tasks: &[Task],
    policy: Policy,
    instant: u64,
) -> Result<Option<usize>, usize> {
    if let Some(task) = jobs.iter().position(|job| job.misses_at(instant)) {
        return Err(task);
    }
    release(jobs, tasks, policy, instant);
    Ok(pick(jobs))
}

#[inline(always)]
fn by_loop(
    jobs: &mut [Job],
    tasks: &[Task],
    policy: Policy,
    instant: u64,
) -> Result<Option<usize>, usize> {
    let mut served = None;
    let mut least = (u64::MAX, u64::MAX);
    for (number, (job, task)) in jobs.iter_mut().zip(tasks).enumerate() {
        if job.misses_at(instant) {
            return Err(number);
        }
        if job.next_release == instant {
            job.release(policy, number, task, instant);
        }
        if job.is_ready() && job.key < least {
            served = Some(number);
            least = job.key;
        }
    }
    Ok(served)
}

fn release(jobs: &mut [Job], tasks: &[Task], policy: Policy, instant: u64) {
    for (number, (job, task)) in jobs.iter_mut().zip(tasks).enumerate() {
        if job.next_release == instant {
            job.release(policy, number, task, instant);
        }
    }
}

/// The ready job with the smallest key; of equal keys the first is taken.
fn pick(jobs: &[Job]) -> Option<usize> {
    jobs.iter()
        .enumerate()
        .filter(|(_, job)| job.is_ready())
        .min_by_key(|(_, job)| job.key)
        .map(|(number, _)| number)
}

impl Counts {
    fn note_preemption(&mut self, instant: u64, frame: &Frame) {
        if instant <= frame.cycle_start() {
            self.preemptions_startup += 1;
        } else {
            self.preemptions_cycle += 1;
        }
    }

    /// Writes the slot's entry and counts it if idle; the slot after the end has none.
    fn note_slot(
        &mut self,
        slot: u64,
        served: Option<usize>,
        frame: &Frame,
        startup: &mut [u8],
        cycle: &mut [u8],
    ) {
        let entry = served.map_or(IDLE, |number| number as u8);
        let idle = u64::from(served.is_none());
        if slot < frame.cycle_start() {
            startup[slot as usize] = entry;
            self.idle_startup += idle;
        } else if slot < frame.end() {
            cycle[(slot - frame.cycle_start()) as usize] = entry;
            self.idle_cycle += idle;
        }
    }
}

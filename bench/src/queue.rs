//! The jobs that stand, in order.

pub const MOST_JOBS: usize = 256;
const LAST_DEADLINE: u64 = 200_000;
const MOST_WORK: u64 = 1_000_000;
const ACCOUNTS: u64 = 64;

#[derive(Clone, Copy, Debug, PartialEq, Eq)]
pub struct Job {
    pub arrival: u64,
    pub deadline: u64,
    pub work: u64,
    pub account: u64,
}

/// Jobs along which neither arrivals nor deadlines fall.
#[derive(Clone, Debug)]
pub struct Queue {
    jobs: Vec<Job>,
}

/// The job is not lawful, or not after those that stand.
#[derive(Clone, Copy, Debug, PartialEq, Eq)]
pub struct NotTaken;

impl Queue {
    #[allow(clippy::new_without_default)]
    pub fn new() -> Queue {
        Queue { jobs: Vec::with_capacity(MOST_JOBS) }
    }

    pub fn jobs(&self) -> &[Job] {
        &self.jobs
    }

    pub fn enter(&mut self, job: Job) -> Result<(), NotTaken> {
        let lawful = self.jobs.len() < MOST_JOBS
            && job.arrival < job.deadline
            && job.deadline <= LAST_DEADLINE
            && (1..=MOST_WORK).contains(&job.work)
            && (1..=ACCOUNTS).contains(&job.account)
            && self.jobs.last().is_none_or(|last| last.arrival <= job.arrival && last.deadline <= job.deadline);
        if !lawful {
            return Err(NotTaken);
        }
        self.jobs.push(job);
        Ok(())
    }

    /// The first job, counted from 1, at which a run of jobs ends that has more work than the top speed does from the run's first
    /// arrival to its last deadline.
    pub fn overfull(&self, top_speed: u64) -> Option<usize> {
        // work done before a run, less what top speed would have done by its start: the least of all runs so far decides
        let top = top_speed as i64;
        let mut done = 0;
        let mut least = i64::MAX;
        for (index, job) in self.jobs.iter().enumerate() {
            least = least.min(done - top * job.arrival as i64);
            done += job.work as i64;
            if done - top * job.deadline as i64 > least {
                return Some(index + 1);
            }
        }
        None
    }
}

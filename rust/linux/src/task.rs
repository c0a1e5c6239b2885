//! Linux threads that stand for the threads of the tables.
//!
//! Credentials, a Landlock domain and no_new_privs belong to a thread in Linux, file descriptors to the process: a thread that is
//! started by another one gets a copy of its domain and marks, and all see the same open rulesets.

use std::sync::mpsc::{channel, Receiver, Sender};
use std::thread::{self, JoinHandle};

type Job = Box<dyn FnOnce() -> i64 + Send>;

/// A thread that does jobs, one at a time, until it is dropped.
pub struct Task {
    jobs: Option<Sender<Job>>,
    answers: Receiver<i64>,
    thread: Option<JoinHandle<()>>,
}

impl Task {
    /// Starts a thread from the calling one.
    pub fn start() -> Task {
        let (jobs, jobs_to_do) = channel::<Job>();
        let (answers_given, answers) = channel();
        let thread = thread::spawn(move || {
            for job in jobs_to_do {
                if answers_given.send(job()).is_err() {
                    return;
                }
            }
        });
        Task {
            jobs: Some(jobs),
            answers,
            thread: Some(thread),
        }
    }

    /// Does a job on this thread and waits for its answer.
    pub fn run(&self, job: impl FnOnce() -> i64 + Send + 'static) -> i64 {
        let jobs = self
            .jobs
            .as_ref()
            .expect("a task takes jobs until it is dropped");
        jobs.send(Box::new(job)).expect("the thread waits for jobs");
        self.answers.recv().expect("the thread answers each job")
    }

    /// Starts a thread from this one.
    pub fn start_another(&self) -> Task {
        let (give, take) = channel();
        self.run(move || i64::from(give.send(Task::start()).is_err()));
        take.recv().expect("the thread has started another")
    }
}

impl Drop for Task {
    fn drop(&mut self) {
        drop(self.jobs.take());
        if let Some(thread) = self.thread.take() {
            // A panic there has been reported already.
            let _ = thread.join();
        }
    }
}

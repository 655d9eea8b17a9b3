//! Work on several items at a time, with results in the order of the items.

use crate::progress::Progress;
use crate::{tell, Stop};
use std::collections::BTreeMap;
use std::io;
use std::sync::atomic::{AtomicUsize, Ordering};
use std::sync::mpsc::{channel, Receiver, RecvTimeoutError};
use std::sync::Arc;
use std::thread;

/// What is to be known of a job while it runs.
#[derive(Clone, Debug, PartialEq, Eq)]
pub enum Note {
    /// What it does from now on.
    Now(String),
    /// A line for standard error.
    Tell(String),
}

/// Takes the notes of a job.
pub type Notes<'a> = &'a dyn Fn(Note);

/// What comes from the job of an item.
enum Said<R> {
    Note(Note),
    Done(R),
}

/// Does the work on one item alone.
pub fn alone<R: Send + 'static>(
    work: impl Fn(Notes) -> R + Send + Sync + 'static,
) -> Result<R, Stop> {
    let mut result = None;
    run(
        vec![()],
        1,
        move |_, notes| work(notes),
        |done| {
            result = Some(done);
            Ok(())
        },
    )?;
    Ok(result.expect("one item, one result"))
}

/// Does the work on each item, so many at a time. This thread takes the results,
/// in the order of the items, and alone writes: so a line on the terminal and
/// what is printed do not mix. Where taking a result fails, the jobs are left to
/// end with the program.
pub fn run<I, R>(
    items: Vec<I>,
    jobs: usize,
    work: impl Fn(&I, Notes) -> R + Send + Sync + 'static,
    mut take: impl FnMut(R) -> Result<(), Stop>,
) -> Result<(), Stop>
where
    I: Send + Sync + 'static,
    R: Send + 'static,
{
    let mut progress = Progress::of(items.len());
    let all = 0..items.len();
    let said = start(items, jobs, work)?;
    // Results before their turn.
    let mut early = BTreeMap::new();
    for next in all {
        let result = loop {
            if let Some(result) = early.remove(&next) {
                break result;
            }
            match said.recv_timeout(progress.due_in()) {
                Ok((item, Said::Note(Note::Now(what)))) => progress.begins(item, what),
                Ok((_, Said::Note(Note::Tell(message)))) => {
                    progress.hide();
                    tell(&message);
                }
                Ok((item, Said::Done(result))) => {
                    progress.ends(item);
                    early.insert(item, result);
                }
                Err(RecvTimeoutError::Timeout) => progress.show(),
                // A job that fell has said why.
                Err(RecvTimeoutError::Disconnected) => return Err(fallen()),
            }
        };
        progress.hide();
        take(result)?;
    }
    Ok(())
}

/// Starts so many threads, each of which takes one item after another.
fn start<I, R>(
    items: Vec<I>,
    jobs: usize,
    work: impl Fn(&I, Notes) -> R + Send + Sync + 'static,
) -> io::Result<Receiver<(usize, Said<R>)>>
where
    I: Send + Sync + 'static,
    R: Send + 'static,
{
    let (say, said) = channel();
    let threads = jobs.min(items.len());
    let shared = Arc::new((items, AtomicUsize::new(0), work));
    for thread in 0..threads {
        let (say, shared) = (say.clone(), Arc::clone(&shared));
        let started = thread::Builder::new().spawn(move || {
            let (items, next, work) = &*shared;
            loop {
                let at = next.fetch_add(1, Ordering::Relaxed);
                let Some(item) = items.get(at) else {
                    return;
                };
                // Where no one listens any more, the program is about to end.
                let note = |note| drop(say.send((at, Said::Note(note))));
                let result = work(item, &note);
                if say.send((at, Said::Done(result))).is_err() {
                    return;
                }
            }
        });
        match started {
            Err(error) if thread == 0 => return Err(error),
            // Fewer at a time will do.
            Err(_) => break,
            Ok(_) => {}
        }
    }
    Ok(said)
}

fn fallen() -> Stop {
    Stop::Io(io::Error::new(io::ErrorKind::Other, "a job has failed"))
}

#[cfg(test)]
mod tests {
    use super::{alone, run, Note};
    use crate::Stop;
    use std::sync::{Arc, Barrier};

    #[test]
    fn results_come_in_the_order_of_the_items() {
        for jobs in [1, 2, 7, 100] {
            let mut results = Vec::new();
            let work = |item: &u64, notes: super::Notes| {
                notes(Note::Now(item.to_string()));
                // The first items take longest.
                std::thread::sleep(std::time::Duration::from_millis(20 - item));
                item * item
            };
            let taken = run((0..20).collect(), jobs, work, |result| {
                results.push(result);
                Ok(())
            });
            assert!(taken.is_ok());
            assert_eq!(results, (0..20).map(|i| i * i).collect::<Vec<u64>>());
        }
    }

    #[test]
    fn as_many_at_a_time_as_said() {
        // Each waits for two others, and three are as many as there are.
        let barrier = Arc::new(Barrier::new(3));
        let work = move |_: &u64, _: super::Notes| barrier.wait().is_leader();
        let mut leaders = 0;
        let taken = run((0..9).collect(), 3, work, |leader| {
            leaders += u64::from(leader);
            Ok(())
        });
        assert!(taken.is_ok());
        assert_eq!(leaders, 3);
    }

    #[test]
    fn what_cannot_be_taken_ends_it() {
        let mut taken = 0;
        let stopped = run(
            (0..1000).collect(),
            2,
            |item: &u64, _| *item,
            |_| {
                taken += 1;
                Err(Stop::Differs)
            },
        );
        assert!(matches!(stopped, Err(Stop::Differs)));
        assert_eq!(taken, 1);
    }

    #[test]
    fn a_fallen_job_is_no_result() {
        let fallen = alone(|_| panic!("as the test wants it"));
        assert!(matches!(fallen, Err::<(), _>(Stop::Io(_))));
    }
}

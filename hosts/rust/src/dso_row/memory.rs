//! The memory that the tables of all jobs share.

use std::sync::{Arc, Condvar, Mutex, MutexGuard, PoisonError};

/// So many bytes, of which each job takes a share.
pub struct Memory {
    limit: usize,
    state: Mutex<State>,
    changed: Condvar,
}

struct State {
    free: usize,
    /// How many have come, and whose turn it is.
    came: u64,
    turn: u64,
}

impl Memory {
    pub fn new(limit: usize) -> Arc<Memory> {
        let state = State {
            free: limit,
            came: 0,
            turn: 0,
        };
        Arc::new(Memory {
            limit,
            state: Mutex::new(state),
            changed: Condvar::new(),
        })
    }

    /// All of them.
    pub fn limit(&self) -> usize {
        self.limit
    }

    /// Waits until so many bytes are free, not more than there are in all. Who
    /// came first is first: a large share is not passed over for small ones.
    pub fn take(self: &Arc<Memory>, bytes: usize) -> Share {
        let mut state = self.state();
        let mine = state.came;
        state.came += 1;
        while state.turn != mine || state.free < bytes {
            let waited = self.changed.wait(state);
            state = waited.unwrap_or_else(PoisonError::into_inner);
        }
        state.turn += 1;
        state.free -= bytes;
        self.changed.notify_all();
        Share {
            of: Arc::clone(self),
            bytes,
        }
    }

    fn state(&self) -> MutexGuard<'_, State> {
        self.state.lock().unwrap_or_else(PoisonError::into_inner)
    }
}

/// Bytes that are given back when it goes.
pub struct Share {
    of: Arc<Memory>,
    bytes: usize,
}

impl Drop for Share {
    fn drop(&mut self) {
        self.of.state().free += self.bytes;
        self.of.changed.notify_all();
    }
}

#[cfg(test)]
mod tests {
    use super::Memory;
    use std::sync::mpsc::{channel, TryRecvError};
    use std::sync::Arc;
    use std::thread;
    use std::time::Duration;

    /// Until this many have come.
    fn wait_for(memory: &Memory, came: u64) {
        while memory.state().came < came {
            thread::sleep(Duration::from_millis(1));
        }
    }

    #[test]
    fn shares_wait_for_each_other_in_turn() {
        let memory = Memory::new(10);
        let (told, heard) = channel();
        let first = memory.take(6);
        let others: Vec<_> = (2..)
            .zip([9, 1])
            .map(|(came, bytes)| {
                let (memory_of, told) = (Arc::clone(&memory), told.clone());
                let other = thread::spawn(move || {
                    let share = memory_of.take(bytes);
                    told.send(bytes).unwrap();
                    share
                });
                wait_for(&memory, came);
                other
            })
            .collect();
        // There is room for 1, but 9 came before it.
        assert_eq!(heard.try_recv(), Err(TryRecvError::Empty));
        assert_eq!(memory.state().free, 4);
        drop(first);
        // Both have their shares now; which thread says so first is not the memory's affair.
        let mut served = [heard.recv().unwrap(), heard.recv().unwrap()];
        served.sort();
        assert_eq!(served, [1, 9]);
        let shares: Vec<_> = others.into_iter().map(|one| one.join().unwrap()).collect();
        assert_eq!(memory.state().free, 0);
        drop(shares);
        assert_eq!(memory.state().free, 10);
        assert_eq!(memory.take(10).bytes, memory.limit());
    }
}

//! A thread that holds things against the bench while the next ones are made, in the order in which they are given.

use crate::difference::Difference;
use std::sync::mpsc::{sync_channel, SyncSender};
use std::thread::{spawn, JoinHandle};

/// So many things may wait.
const AHEAD: usize = 64;

pub struct Later<T> {
    to: Option<SyncSender<T>>,
    thread: Option<JoinHandle<Result<(), Difference>>>,
}

impl<T: Send + 'static> Later<T> {
    /// A thread that does this with each thing, and ends at the first difference.
    pub fn start(check: impl FnMut(T) -> Result<(), Difference> + Send + 'static) -> Later<T> {
        let (to, from) = sync_channel::<T>(AHEAD);
        let thread = spawn(move || from.into_iter().try_for_each(check));
        Later { to: Some(to), thread: Some(thread) }
    }

    /// Gives it a thing; or hands back the difference that it met.
    pub fn give(&mut self, thing: T) -> Result<(), Difference> {
        match &self.to {
            Some(to) if to.send(thing).is_ok() => Ok(()),
            _ => self.end(),
        }
    }

    /// Waits until all that was given is done.
    pub fn end(&mut self) -> Result<(), Difference> {
        drop(self.to.take());
        let ended = self.thread.take().map_or(Ok(Ok(())), JoinHandle::join);
        ended.unwrap_or_else(|_| Err(Difference::new("a thread of the comparison broke off", &[], &[], &[])))
    }
}

//! Channels, as `std::sync::mpsc` has them: a queue under a mutex with two conditions. `send` is
//! `lock`, `signal`, `unlock`; `recv` is `lock`, a wait where there is nothing, `broadcast` where
//! the channel is bounded, `unlock`.

pub use std::sync::mpsc::{RecvError, RecvTimeoutError, SendError, TryRecvError, TrySendError};

use super::{Arc, Condvar, Mutex, MutexGuard};
use crate::seat;
use std::collections::VecDeque;
use std::fmt;
use std::marker::PhantomData;
use std::sync::mpsc;
use std::time::{Duration, Instant};

struct Queue<T> {
    items: VecDeque<T>,
    senders: usize,
    has_receiver: bool,
    /// How many were taken out since the beginning, by which a sender of a channel without room
    /// knows that its own was.
    taken: u64,
    sent: u64,
}

struct Shared<T> {
    queue: Mutex<Queue<T>>,
    /// How many may wait in the channel. None for any number.
    most: Option<usize>,
    item: Condvar,
    room: Condvar,
}

impl<T> Shared<T> {
    #[track_caller]
    fn lock(&self) -> MutexGuard<'_, Queue<T>> {
        self.queue.lock().unwrap_or_else(|poisoned| poisoned.into_inner())
    }

    #[track_caller]
    fn wait<'a>(condition: &Condvar, queue: MutexGuard<'a, Queue<T>>) -> MutexGuard<'a, Queue<T>> {
        condition.wait(queue).unwrap_or_else(|poisoned| poisoned.into_inner())
    }

    fn is_full(&self, queue: &Queue<T>) -> bool {
        // A channel without room lets one through at a time, and its sender waits until it is
        // taken.
        self.most.is_some_and(|most| queue.items.len() >= most.max(1))
    }

    #[track_caller]
    fn send(&self, item: T) -> Result<(), SendError<T>> {
        let mut queue = self.lock();
        while queue.has_receiver && self.is_full(&queue) {
            queue = Self::wait(&self.room, queue);
        }
        if !queue.has_receiver {
            return Err(SendError(item));
        }
        queue.items.push_back(item);
        queue.sent += 1;
        self.item.notify_one();
        let mine = queue.sent;
        while self.most == Some(0) && queue.has_receiver && queue.taken < mine {
            queue = Self::wait(&self.room, queue);
        }
        match self.most {
            Some(0) if queue.taken < mine => {
                Err(SendError(queue.items.pop_back().expect("its own item is the last")))
            }
            _ => Ok(()),
        }
    }

    fn take(&self, queue: &mut Queue<T>) -> Option<T> {
        let item = queue.items.pop_front()?;
        queue.taken += 1;
        if self.most.is_some() {
            self.room.notify_all();
        }
        Some(item)
    }

    #[track_caller]
    fn try_recv(&self) -> Result<T, TryRecvError> {
        let mut queue = self.lock();
        match self.take(&mut queue) {
            Some(item) => Ok(item),
            None if queue.senders == 0 => Err(TryRecvError::Disconnected),
            None => Err(TryRecvError::Empty),
        }
    }

    #[track_caller]
    fn recv(&self) -> Result<T, RecvError> {
        let mut queue = self.lock();
        while queue.items.is_empty() && queue.senders > 0 {
            queue = Self::wait(&self.item, queue);
        }
        self.take(&mut queue).ok_or(RecvError)
    }

    #[track_caller]
    fn recv_until(&self, time: Duration) -> Result<T, RecvTimeoutError> {
        if seat::current(|_, _| ()).is_some() {
            return self.recv().map_err(|_| RecvTimeoutError::Disconnected);
        }
        let begun = Instant::now();
        let mut queue = self.lock();
        while queue.items.is_empty() && queue.senders > 0 {
            let rest = time.checked_sub(begun.elapsed()).ok_or(RecvTimeoutError::Timeout)?;
            let waited = self
                .item
                .wait_timeout(queue, rest)
                .unwrap_or_else(|poisoned| poisoned.into_inner());
            queue = waited.0;
        }
        self.take(&mut queue).ok_or(RecvTimeoutError::Disconnected)
    }

    #[track_caller]
    fn add_sender(&self) {
        self.lock().senders += 1;
    }

    #[track_caller]
    fn drop_sender(&self) {
        let mut queue = self.lock();
        queue.senders -= 1;
        if queue.senders == 0 {
            self.item.notify_all();
        }
    }

    #[track_caller]
    fn drop_receiver(&self) {
        let mut queue = self.lock();
        queue.has_receiver = false;
        let rest =
            if self.most == Some(0) { VecDeque::new() } else { std::mem::take(&mut queue.items) };
        self.room.notify_all();
        drop(queue);
        drop(rest);
    }
}

/// Sends into a channel that takes any number of items.
pub struct Sender<T>(Arc<Shared<T>>);

/// Sends into a channel with a bound on its items.
pub struct SyncSender<T>(Arc<Shared<T>>);

/// Takes items out of a channel. As std's it isn't `Sync`.
pub struct Receiver<T>(Arc<Shared<T>>, PhantomData<mpsc::Receiver<T>>);

fn made<T>(most: Option<usize>) -> Arc<Shared<T>> {
    let queue = Queue { items: VecDeque::new(), senders: 1, has_receiver: true, taken: 0, sent: 0 };
    Arc::new(Shared { queue: Mutex::new(queue), most, item: Condvar::new(), room: Condvar::new() })
}

/// A channel that takes any number of items. No step.
pub fn channel<T>() -> (Sender<T>, Receiver<T>) {
    let shared = made(None);
    (Sender(shared.clone()), Receiver(shared, PhantomData))
}

/// A channel that takes at most this many items; with 0 a sender waits until its item is taken. No step.
pub fn sync_channel<T>(bound: usize) -> (SyncSender<T>, Receiver<T>) {
    let shared = made(Some(bound));
    (SyncSender(shared.clone()), Receiver(shared, PhantomData))
}

impl<T> Sender<T> {
    /// Sends an item, unless the receiver is gone.
    #[track_caller]
    pub fn send(&self, item: T) -> Result<(), SendError<T>> {
        self.0.send(item)
    }
}

impl<T> SyncSender<T> {
    /// Waits for room and sends an item, unless the receiver is gone.
    #[track_caller]
    pub fn send(&self, item: T) -> Result<(), SendError<T>> {
        self.0.send(item)
    }

    /// Sends an item where there is room. A channel without room has it never.
    #[track_caller]
    pub fn try_send(&self, item: T) -> Result<(), TrySendError<T>> {
        let mut queue = self.0.lock();
        if !queue.has_receiver {
            return Err(TrySendError::Disconnected(item));
        }
        if self.0.most == Some(0) || self.0.is_full(&queue) {
            return Err(TrySendError::Full(item));
        }
        queue.items.push_back(item);
        queue.sent += 1;
        self.0.item.notify_one();
        Ok(())
    }
}

macro_rules! sender {
    ($name:ident) => {
        impl<T> Clone for $name<T> {
            fn clone(&self) -> $name<T> {
                self.0.add_sender();
                $name(self.0.clone())
            }
        }

        impl<T> Drop for $name<T> {
            fn drop(&mut self) {
                self.0.drop_sender();
            }
        }

        impl<T> fmt::Debug for $name<T> {
            fn fmt(&self, to: &mut fmt::Formatter<'_>) -> fmt::Result {
                to.debug_struct(stringify!($name)).finish_non_exhaustive()
            }
        }
    };
}

sender!(Sender);
sender!(SyncSender);

impl<T> Receiver<T> {
    /// Waits for an item, unless all senders are gone.
    #[track_caller]
    pub fn recv(&self) -> Result<T, RecvError> {
        self.0.recv()
    }

    /// An item, where there is one.
    #[track_caller]
    pub fn try_recv(&self) -> Result<T, TryRecvError> {
        self.0.try_recv()
    }

    /// As `recv`: in a run no time passes, so it never times out.
    #[track_caller]
    pub fn recv_timeout(&self, time: Duration) -> Result<T, RecvTimeoutError> {
        self.0.recv_until(time)
    }

    /// Items until all senders are gone.
    pub fn iter(&self) -> Iter<'_, T> {
        Iter(self)
    }

    /// Items until there is none.
    pub fn try_iter(&self) -> TryIter<'_, T> {
        TryIter(self)
    }
}

impl<T> Drop for Receiver<T> {
    fn drop(&mut self) {
        self.0.drop_receiver();
    }
}

impl<T> fmt::Debug for Receiver<T> {
    fn fmt(&self, to: &mut fmt::Formatter<'_>) -> fmt::Result {
        to.debug_struct("Receiver").finish_non_exhaustive()
    }
}

/// Items of a channel until all senders are gone.
#[derive(Debug)]
pub struct Iter<'a, T: 'a>(&'a Receiver<T>);

/// Items of a channel until there is none.
#[derive(Debug)]
pub struct TryIter<'a, T: 'a>(&'a Receiver<T>);

/// Items of a channel that it owns.
#[derive(Debug)]
pub struct IntoIter<T>(Receiver<T>);

impl<T> Iterator for Iter<'_, T> {
    type Item = T;

    fn next(&mut self) -> Option<T> {
        self.0.recv().ok()
    }
}

impl<T> Iterator for TryIter<'_, T> {
    type Item = T;

    fn next(&mut self) -> Option<T> {
        self.0.try_recv().ok()
    }
}

impl<T> Iterator for IntoIter<T> {
    type Item = T;

    fn next(&mut self) -> Option<T> {
        self.0.recv().ok()
    }
}

impl<T> IntoIterator for Receiver<T> {
    type Item = T;
    type IntoIter = IntoIter<T>;

    fn into_iter(self) -> IntoIter<T> {
        IntoIter(self)
    }
}

impl<'a, T> IntoIterator for &'a Receiver<T> {
    type Item = T;
    type IntoIter = Iter<'a, T>;

    fn into_iter(self) -> Iter<'a, T> {
        Iter(self)
    }
}

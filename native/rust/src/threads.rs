//! Numbers of threads: by time, or by who spawned them and as which.

use crate::objects::MOST;
use crate::place::Place;

/// Who spawned a thread and as which, from the main thread down. It is the same in every order of
/// the steps.
pub(crate) type Path = Vec<u32>;

/// A thread that was declared or spawned.
#[derive(Clone, Debug)]
pub(crate) struct Thread {
    pub number: u32,
    pub path: Path,
    pub name: Option<String>,
    /// Where it was spawned. A main thread has the place of the check.
    pub place: Place,
    children: u32,
    is_finished: bool,
    has_ended: bool,
}

impl Thread {
    pub fn has_ended(&self) -> bool {
        self.has_ended
    }
}

/// The threads of a run, by when they were spawned.
#[derive(Default)]
pub(crate) struct Threads {
    all: Vec<Thread>,
    /// Numbers that are kept for threads of these paths.
    kept: Vec<Path>,
}

impl Threads {
    /// A thread with a path of this list has its place there as its number.
    pub fn keep(&mut self, paths: &[Path]) {
        self.kept = paths.to_vec();
    }

    pub fn len(&self) -> u32 {
        self.all.len() as u32
    }

    /// A thread that nobody spawned.
    pub fn declare(&mut self, name: Option<String>, place: Place) -> u32 {
        let number = self.len();
        self.all.push(Thread {
            number,
            path: vec![number],
            name,
            place,
            children: 0,
            is_finished: false,
            has_ended: false,
        });
        number
    }

    /// A thread that `parent` spawns, where its number is below `most`.
    pub fn spawn(
        &mut self,
        parent: u32,
        name: Option<String>,
        place: Place,
        most: u32,
    ) -> Option<u32> {
        let from = self.all.iter_mut().find(|thread| thread.number == parent)?;
        from.children += 1;
        let path: Path = from.path.iter().copied().chain([from.children]).collect();
        let number = self.number_of(&path);
        if number >= most {
            return None;
        }
        self.all.push(Thread {
            number,
            path,
            name,
            place,
            children: 0,
            is_finished: false,
            has_ended: false,
        });
        Some(number)
    }

    fn number_of(&self, path: &Path) -> u32 {
        let kept = self.kept.iter().position(|kept| kept == path);
        let is_free =
            |number: &u32| *number as usize >= self.kept.len() && self.get(*number).is_none();
        kept.map_or_else(|| (0..).find(is_free).unwrap_or(MOST as u32), |place| place as u32)
    }

    pub fn get(&self, number: u32) -> Option<&Thread> {
        self.all.iter().find(|thread| thread.number == number)
    }

    /// The numbers of all threads, of those that have ended too.
    pub fn numbers(&self) -> impl Iterator<Item = u32> + '_ {
        self.all.iter().map(|thread| thread.number)
    }

    /// The number of a thread by its name.
    pub fn named(&self, name: &str) -> Option<u32> {
        self.all
            .iter()
            .find(|thread| thread.name.as_deref() == Some(name))
            .map(|thread| thread.number)
    }

    pub fn end(&mut self, number: u32) {
        if let Some(thread) = self.all.iter_mut().find(|thread| thread.number == number) {
            thread.has_ended = true;
        }
    }

    /// All that the thread does is done but for its end.
    pub fn finish(&mut self, number: u32) {
        if let Some(thread) = self.all.iter_mut().find(|thread| thread.number == number) {
            thread.is_finished = true;
        }
    }

    pub fn is_finished(&self, number: u32) -> bool {
        self.get(number).is_some_and(|thread| thread.is_finished)
    }

    pub fn has_ended(&self, number: u32) -> bool {
        self.get(number).is_some_and(|thread| thread.has_ended)
    }

    pub fn unended(&self) -> u32 {
        self.all.iter().filter(|thread| !thread.has_ended).count() as u32
    }

    /// The threads by their numbers, of which none is left out below the greatest.
    pub fn by_number(&self) -> Vec<Thread> {
        let mut threads = self.all.clone();
        threads.sort_by_key(|thread| thread.number);
        threads
    }

    /// One more than the greatest number, of the kept ones too.
    pub fn needed(&self) -> u32 {
        let greatest = self.all.iter().map(|thread| thread.number + 1).max();
        greatest.unwrap_or(0).max(self.kept.len() as u32)
    }
}

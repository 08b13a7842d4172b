//! What a run's threads share under the baton: the book, the asks that aren't posted yet, the
//! numbers of objects and threads.

use crate::accesses::Checked;
use crate::ask::{kind, Late};
use crate::ffi::Book;
use crate::objects::{Kind, Objects, MOST};
use crate::place::{Place, Places};
use crate::raw::{Ask, Choice, Deal, Event, Outcome, Plan, Refused, Stepped};
use crate::replay::Follow;
use crate::spin::Spins;
use crate::threads::Threads;

/// How a run came to its end.
#[derive(Clone, Debug)]
pub(crate) enum End {
    /// The book has an outcome.
    Outcome(Box<Outcome>),
    /// It started more threads than its order has.
    MoreThreads,
    /// Something that no further run would mend: the check ends with this sentence.
    Sentence(String),
}

/// What goes wrong in the layer itself, as a sentence.
pub(crate) type Fault = String;

/// Who has the baton next.
pub(crate) enum Next {
    /// This thread, with the ask that its step took and the answer.
    Goes(u32, Ask, i64),
    /// Nobody: the run is over.
    Over,
}

/// An access of a cell, which is no step.
#[derive(Clone, Copy, Debug)]
pub(crate) struct Access {
    /// How many steps stood before it.
    pub after: u32,
    pub thread: u32,
    pub line: u32,
    pub cell: u32,
    pub is_write: bool,
}

/// A panic, or what this crate says of a fault, that fails its run.
#[derive(Clone, Debug)]
pub(crate) struct Panicked {
    pub place: Place,
    pub message: String,
    /// Whether the code panicked: else this crate found that something is wrong.
    pub is_panic: bool,
}

pub(crate) struct State {
    book: Option<Book>,
    choice: Choice,
    pub plan: Plan,
    pub deal: Deal,
    pub limit: u32,
    late: [Option<(u32, Late)>; MOST],
    posted: [Option<(u32, Ask)>; MOST],
    pub objects: Objects,
    pub threads: Threads,
    pub places: Places,
    pub spins: Spins,
    pub steps: u32,
    pub rebuilt: u32,
    pub accesses: Vec<Access>,
    pub cells: u32,
    /// Where accesses are looked at in each run.
    pub checked: Option<Checked>,
    /// Where a thread that polls and waits for a wake-up was last.
    pub polled: [Option<Place>; MOST],
    /// Where `random` began.
    pub seed: u64,
    pub random: u64,
    pub panicked: Option<Panicked>,
    pub names: Vec<(Kind, u32, String)>,
    /// Threads that are declared and haven't come to their first ask: the next one, and how many
    /// there are.
    pub declared: Option<(u32, u32)>,
    pub end: Option<End>,
    pub events: Vec<Event>,
    pub parked: u32,
    /// Whether steps are wanted of a run that passes, too.
    pub keeps_steps: bool,
    /// What looks at each step, in a replay.
    pub follow: Option<Follow>,
}

impl State {
    pub fn new(plan: Plan, deal: Deal, limit: u32, places: Places) -> State {
        State {
            book: None,
            choice: Choice::Over,
            plan,
            deal,
            limit,
            late: [const { None }; MOST],
            posted: [None; MOST],
            objects: Objects::new(),
            threads: Threads::default(),
            places,
            spins: Spins::default(),
            steps: 0,
            rebuilt: 0,
            accesses: Vec::new(),
            cells: 0,
            checked: None,
            polled: [None; MOST],
            seed: 0,
            random: 0,
            panicked: None,
            names: Vec::new(),
            declared: None,
            end: None,
            events: Vec::new(),
            parked: 0,
            keeps_steps: false,
            follow: None,
        }
    }

    /// Makes the book. The threads from `first` on begin only where a step starts them.
    pub fn open(&mut self, first: u32, line: u32) -> Result<(), Fault> {
        let mut book = Book::new(&self.deal, &self.plan, self.limit).map_err(told)?;
        self.choice = book.next();
        for thread in first..self.deal.threads {
            let begin = Ask::of(kind::BEGIN, 0);
            self.choice = book.post(thread, line, &begin).map_err(told)?;
            self.posted[thread as usize] = Some((line, begin));
        }
        self.book = Some(book);
        Ok(())
    }

    pub fn bring(&mut self, thread: u32, line: u32, late: Late) {
        self.late[thread as usize] = Some((line, late));
    }

    /// Who goes next: the only place where asks are posted and steps are taken.
    pub fn next(&mut self) -> Result<Next, Fault> {
        loop {
            let Some(book) = self.book.as_mut() else { return Ok(Next::Over) };
            let (stepped, thread, line, ask) = match self.choice {
                Choice::Over => return self.settle().map(|()| Next::Over),
                Choice::Turn(thread) => {
                    let (line, ask) = self.posted[thread as usize]
                        .ok_or("the book's turn is of a thread that posted nothing")?;
                    let (stepped, choice) = book.take(thread).map_err(told)?;
                    self.choice = choice;
                    (stepped, thread, line, ask)
                }
                Choice::Waits(thread) => {
                    let late = self.late[thread as usize].take();
                    let (line, late) = late.ok_or_else(|| {
                        format!("the book waits for thread {thread}, which brought no ask")
                    })?;
                    let ask = late.ask(&self.objects.values);
                    let (stepped, choice) = book.step(thread, line, &ask).map_err(told)?;
                    self.choice = choice;
                    (stepped, thread, line, ask)
                }
            };
            match stepped {
                Stepped::Answer(answer) => {
                    self.took(thread, line, &ask, answer);
                    return Ok(Next::Goes(thread, ask, answer));
                }
                Stepped::Ended(answer) => {
                    self.tell(self.steps + 1, thread, line, ask, answer);
                    return self.settle().map(|()| Next::Over);
                }
                Stepped::Posted if ask.kind == kind::NONE => self.threads.end(thread),
                Stepped::Posted => self.posted[thread as usize] = Some((line, ask)),
            }
        }
    }

    /// Whether a step can be taken for sure.
    pub fn lets(&self, late: &Late) -> bool {
        match late {
            Late::Change { .. } => true,
            Late::Ask(ask) if ask.kind == kind::JOIN => self.threads.has_ended(ask.a),
            Late::Ask(ask) => self.objects.lets(ask),
        }
    }

    /// Whether another thread can go for sure.
    pub fn lets_another(&self, me: u32) -> bool {
        self.threads.numbers().filter(|number| *number != me).any(|number| {
            let posted = self.posted[number as usize].map(|(_, ask)| Late::Ask(ask));
            let brought = self.late[number as usize].map(|(_, late)| late);
            brought.or(posted).is_some_and(|late| self.lets(&late))
        })
    }

    fn took(&mut self, thread: u32, line: u32, ask: &Ask, answer: i64) {
        self.posted[thread as usize] = None;
        self.steps += 1;
        self.tell(self.steps, thread, line, *ask, answer);
        self.objects.took(ask, answer);
        if let Some(checked) = self.checked.as_mut().filter(|_| !self.spins.is_own(thread)) {
            checked.clocks.took(thread, ask, answer);
        }
        self.spins.took(thread, ask, answer);
    }

    /// In a replay each step is looked at.
    fn tell(&self, number: u32, thread: u32, line: u32, ask: Ask, answer: i64) {
        if let Some(follow) = &self.follow {
            follow.took(number, self.places.place(line), &Event { thread, line, ask, answer });
        }
    }

    fn settle(&mut self) -> Result<(), Fault> {
        let book = self.book.as_mut().ok_or("a run without a book ended")?;
        let outcome =
            book.outcome().map_err(told)?.ok_or("the book has neither a turn nor an outcome")?;
        self.close(End::Outcome(Box::new(outcome)))
    }

    /// The run is over: its book goes, since parked threads keep the run.
    pub fn close(&mut self, end: End) -> Result<(), Fault> {
        let Some(mut book) = self.book.take() else { return Ok(()) };
        let passed = matches!(&end, End::Outcome(outcome) if outcome.has_passed());
        self.steps = book.length();
        if self.keeps_steps || !passed {
            self.events = book.steps().map_err(told)?;
        }
        if !passed {
            self.parked = self.threads.unended();
        }
        self.end = Some(end);
        Ok(())
    }

    /// A number for an object, with the deal mended where it has to be.
    pub fn number(&mut self, kind: Kind, first: i64, place: Place) -> Result<Option<u32>, Fault> {
        let Some(number) = self.objects.number(kind, first, place) else { return Ok(None) };
        if !self.objects.is_reused(kind, number)
            && self.deal.mend(kind, number, first)
            && self.book.is_some()
        {
            self.rebuild()?;
        }
        Ok(Some(number))
    }

    /// The same run in a book of the mended deal: no step so far has touched what is new in it.
    fn rebuild(&mut self) -> Result<(), Fault> {
        let mut old = self.book.take().ok_or("a run without a book was to be mended")?;
        let steps = old.steps().map_err(told)?;
        let mut book = Book::new(&self.deal, &self.plan, self.limit).map_err(told)?;
        let mut posts: Vec<Vec<(u32, Ask)>> = vec![Vec::new(); self.deal.threads as usize];
        for thread in 0..self.deal.threads {
            posts[thread as usize].extend(self.posted[thread as usize]);
            if self.threads.has_ended(thread) {
                posts[thread as usize].push((1, Ask::of(kind::NONE, 0)));
            }
        }
        for step in steps.iter().rev() {
            posts[step.thread as usize].push((step.line, step.ask));
        }
        self.choice = again(&mut book, &mut posts, steps.len())?;
        self.book = Some(book);
        self.rebuilt += 1;
        Ok(())
    }

    /// By thread, in which line it asks what, where that is posted and not taken.
    pub fn asking(&self) -> Vec<(u32, u32, Ask)> {
        let posted = self
            .posted
            .iter()
            .enumerate()
            .filter_map(|(thread, post)| post.map(|(line, ask)| (thread, line, ask)));
        posted
            .filter(|(_, _, ask)| ask.kind != kind::BEGIN)
            .map(|(thread, line, ask)| (thread as u32, line, ask))
            .collect()
    }

    /// The steps so far of a run that isn't over.
    pub fn unfinished(&mut self) -> Result<Vec<Event>, Fault> {
        self.book.as_mut().map_or(Ok(Vec::new()), |book| book.steps().map_err(told))
    }
}

/// Makes the steps again out of each thread's posts, the last one first.
fn again(book: &mut Book, posts: &mut [Vec<(u32, Ask)>], steps: usize) -> Result<Choice, Fault> {
    let mut choice = book.next();
    let mut taken = 0;
    while taken < steps {
        choice = match choice {
            Choice::Turn(thread) => {
                taken += 1;
                book.take(thread).map_err(told)?.1
            }
            Choice::Waits(thread) => {
                let (line, ask) = posts[thread as usize]
                    .pop()
                    .ok_or("a mended run departs: a post is missing")?;
                book.post(thread, line, &ask).map_err(told)?
            }
            Choice::Over => return Err("a mended run departs: it is over".into()),
        };
    }
    for (thread, rest) in posts.iter_mut().enumerate() {
        while let Some((line, ask)) = rest.pop() {
            choice = book.post(thread as u32, line, &ask).map_err(told)?;
        }
    }
    Ok(choice)
}

pub(crate) fn told(refused: Refused) -> Fault {
    refused.to_string()
}

impl Outcome {
    pub fn has_passed(&self) -> bool {
        self.kind == 1
    }
}

//! What threads and objects are called in texts.

use crate::ask::kind;
use crate::objects::{Kind, Objects};
use crate::raw::Ask;
use crate::runner::Ran;
use crate::threads::Thread;
use std::collections::HashSet;

/// Words that are no names in traces.
const TAKEN: &str =
    " script var mutex cond sem barrier thread end read write add cas lock trylock \
                     unlock wait signal broadcast down trydown up arrive join yield assert set if \
                     else while start rwlock rdlock wrlock tryrdlock trywrlock rwunlock ";

/// Whether a text is a name as traces have them: a letter, and then at most 31 letters, digits and
/// `_`.
pub(crate) fn is_name(text: &str) -> bool {
    let is_word = |letter: char| letter.is_ascii_alphanumeric() || letter == '_';
    let is_register = text
        .strip_prefix('r')
        .is_some_and(|number| number.parse::<u8>().is_ok_and(|number| number < 16));
    text.starts_with(|first: char| first.is_ascii_alphabetic())
        && text.len() <= 32
        && text.chars().all(is_word)
        && !is_register
        && !TAKEN.contains(&format!(" {text} "))
}

/// The names of a run: of its threads, and of its objects by kind.
#[derive(Clone, Debug, Default, PartialEq, Eq)]
pub(crate) struct Names {
    pub threads: Vec<String>,
    pub objects: [Vec<String>; 6],
}

const LETTERS: [char; 6] = ['v', 'm', 'c', 's', 'b', 'l'];

/// What names are made of.
pub(crate) struct Named<'a> {
    pub threads: &'a [Thread],
    pub objects: &'a Objects,
    /// Names that the test gave objects.
    pub given: &'a [(Kind, u32, String)],
    /// Semaphores at which threads wait for changes.
    pub spinning: &'a [(u32, u32)],
}

impl Names {
    pub fn of(ran: &Ran, threads: u32) -> Names {
        let Ran { objects, names, spinning, .. } = ran;
        Names::made(&Named { threads: &ran.threads, objects, given: names, spinning }, threads)
    }

    /// Those that were given, where they are names and nothing else has them, and plain ones for
    /// all others.
    pub fn made(named: &Named<'_>, threads: u32) -> Names {
        let mut taken: HashSet<String> =
            named.given.iter().map(|(_, _, name)| name.clone()).collect();
        let mut names = Names::default();
        for thread in 0..threads {
            let told = named
                .threads
                .iter()
                .find(|told| told.number == thread)
                .and_then(|told| told.name.clone());
            let given = told.filter(|name| is_name(name) && !taken.contains(name));
            let name = given.unwrap_or_else(|| fresh(&format!("t{thread}"), &taken));
            taken.insert(name.clone());
            names.threads.push(name);
        }
        for kind in Kind::ALL {
            for number in 0..named.objects.given(kind) {
                let given = named.given.iter().find(|(of, its, _)| *of == kind && *its == number);
                let name = given.map_or_else(
                    || plain(named, &names, kind, number, &taken),
                    |(_, _, name)| name.clone(),
                );
                taken.insert(name.clone());
                names.objects[kind as usize].push(name);
            }
        }
        names
    }

    /// The text that the library takes.
    pub fn text(&self) -> String {
        let threads = self.threads.iter().map(|name| format!("thread {name}\n"));
        let of = |kind: Kind| {
            self.objects[kind as usize].iter().map(move |name| format!("{} {name}\n", kind.word()))
        };
        threads.chain(Kind::ALL.into_iter().flat_map(of)).collect()
    }

    /// Adds the name of a thread or an object, by the word of its kind.
    pub fn add(&mut self, word: &str, name: &str) -> Option<()> {
        let list = match Kind::ALL.into_iter().find(|kind| kind.word() == word) {
            Some(kind) => &mut self.objects[kind as usize],
            None if word == "thread" => &mut self.threads,
            None => return None,
        };
        list.push(name.to_owned());
        Some(())
    }

    pub fn thread(&self, thread: u32) -> &str {
        self.threads.get(thread as usize).map_or("?", String::as_str)
    }

    pub fn object(&self, kind: Kind, number: u32) -> &str {
        self.objects[kind as usize].get(number as usize).map_or("?", String::as_str)
    }

    /// An ask in the words of a trace.
    pub fn words(&self, ask: &Ask) -> String {
        let of = |word: &str, kind: Kind| format!("{word} {}", self.object(kind, ask.a));
        let wait = |word: &str| {
            format!("{} {}", of(word, Kind::Condition), self.object(Kind::Mutex, ask.b))
        };
        match ask.kind {
            kind::READ => of("read", Kind::Variable),
            kind::WRITE => format!("{} {}", of("write", Kind::Variable), ask.x),
            kind::ADD => format!("{} {}", of("add", Kind::Variable), ask.x),
            kind::CAS => format!("{} {} {}", of("cas", Kind::Variable), ask.x, ask.y),
            kind::LOCK => of("lock", Kind::Mutex),
            kind::TRY_LOCK => of("trylock", Kind::Mutex),
            kind::UNLOCK => of("unlock", Kind::Mutex),
            kind::RELEASE => wait("release"),
            kind::REGAIN => wait("regain"),
            kind::SIGNAL => of("signal", Kind::Condition),
            kind::BROADCAST => of("broadcast", Kind::Condition),
            kind::DOWN => of("down", Kind::Semaphore),
            kind::TRY_DOWN => of("trydown", Kind::Semaphore),
            kind::UP => of("up", Kind::Semaphore),
            kind::ARRIVE => of("arrive", Kind::Barrier),
            kind::LEAVE => of("leave", Kind::Barrier),
            kind::RD_LOCK => of("rdlock", Kind::RwLock),
            kind::WR_LOCK => of("wrlock", Kind::RwLock),
            kind::TRY_RD_LOCK => of("tryrdlock", Kind::RwLock),
            kind::TRY_WR_LOCK => of("trywrlock", Kind::RwLock),
            kind::RW_UNLOCK => of("rwunlock", Kind::RwLock),
            kind::JOIN => format!("join {}", self.thread(ask.a)),
            kind::START => format!("start {}", self.thread(ask.a)),
            kind::BEGIN => "begin".into(),
            kind::CHECK_HOLDS => "check 1".into(),
            kind::CHECK_FAILS => "check 0".into(),
            _ => "yield".into(),
        }
    }
}

fn plain(
    named: &Named<'_>,
    names: &Names,
    kind: Kind,
    number: u32,
    taken: &HashSet<String>,
) -> String {
    let spins = named
        .spinning
        .iter()
        .find(|(semaphore, _)| kind == Kind::Semaphore && *semaphore == number);
    let name = match spins {
        Some((_, thread)) => format!("spin_{:.27}", names.thread(*thread)),
        None => format!("{}{number}", LETTERS[kind as usize]),
    };
    fresh(&name, taken)
}

fn fresh(name: &str, taken: &HashSet<String>) -> String {
    if !taken.contains(name) {
        return name.to_owned();
    }
    (2..)
        .map(|count| format!("{name}_{count}"))
        .find(|other| !taken.contains(other))
        .unwrap_or_default()
}

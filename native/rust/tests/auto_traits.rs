//! The types have std's auto traits: of each type here and of std's the same ones hold.
#![allow(missing_docs)]

use std::cell::Cell;
use std::panic::{RefUnwindSafe, UnwindSafe};
use std::rc::Rc;

/// Whether a type has a trait: the constant of the type's own is found before that of the trait for
/// all types.
macro_rules! has {
    ($type:ty, $bound:path) => {{
        #[allow(dead_code)]
        struct Has<T: ?Sized>(std::marker::PhantomData<T>);
        #[allow(dead_code)]
        trait HasNot {
            const HAS: bool = false;
        }
        impl<T: ?Sized> HasNot for Has<T> {}
        #[allow(dead_code)]
        impl<T: ?Sized + $bound> Has<T> {
            const HAS: bool = true;
        }
        <Has<$type>>::HAS
    }};
}

macro_rules! traits {
    ($type:ty) => {
        [
            has!($type, Send),
            has!($type, Sync),
            has!($type, Unpin),
            has!($type, UnwindSafe),
            has!($type, RefUnwindSafe),
        ]
    };
}

/// What holds of a list of types, of which each stands in `lib`.
macro_rules! all {
    ($lib:ident: $($type:ty),* $(,)?) => {{
        use $lib as lib;
        vec![$((stringify!($type), traits!($type))),*]
    }};
}

macro_rules! types {
    ($lib:ident) => {
        all![
            $lib: lib::sync::Mutex<u8>, lib::sync::Mutex<Rc<u8>>, lib::sync::Mutex<Cell<u8>>,
            lib::sync::Mutex<dyn Send>, lib::sync::MutexGuard<'static, u8>,
            lib::sync::MutexGuard<'static, Rc<u8>>, lib::sync::MutexGuard<'static, Cell<u8>>,
            lib::sync::RwLock<u8>, lib::sync::RwLock<Rc<u8>>, lib::sync::RwLock<Cell<u8>>,
            lib::sync::RwLockReadGuard<'static, u8>, lib::sync::RwLockReadGuard<'static, Cell<u8>>,
            lib::sync::RwLockWriteGuard<'static, u8>, lib::sync::RwLockWriteGuard<'static,
            Cell<u8>>, lib::sync::Condvar, lib::sync::WaitTimeoutResult, lib::sync::Barrier,
            lib::sync::BarrierWaitResult, lib::sync::Once, lib::sync::OnceState,
            lib::sync::OnceLock<u8>, lib::sync::OnceLock<Rc<u8>>, lib::sync::OnceLock<Cell<u8>>,
            lib::sync::LazyLock<u8>, lib::sync::LazyLock<Cell<u8>>, lib::sync::LazyLock<u8, Rc<u8>>,
            lib::sync::LazyLock<u8, Cell<u8>>, lib::sync::mpsc::Sender<u8>,
            lib::sync::mpsc::Sender<Rc<u8>>, lib::sync::mpsc::Sender<Cell<u8>>,
            lib::sync::mpsc::SyncSender<u8>, lib::sync::mpsc::SyncSender<Rc<u8>>,
            lib::sync::mpsc::Receiver<u8>, lib::sync::mpsc::Receiver<Rc<u8>>,
            lib::sync::mpsc::Receiver<Cell<u8>>, lib::sync::mpsc::Iter<'static, u8>,
            lib::sync::mpsc::TryIter<'static, u8>, lib::sync::mpsc::IntoIter<u8>,
            lib::sync::atomic::AtomicBool, lib::sync::atomic::AtomicU8,
            lib::sync::atomic::AtomicI64, lib::sync::atomic::AtomicUsize,
            lib::sync::atomic::AtomicPtr<u8>, lib::sync::atomic::AtomicPtr<Rc<u8>>,
            lib::thread::JoinHandle<u8>, lib::thread::JoinHandle<Cell<u8>>, lib::thread::Thread,
            lib::thread::ThreadId, lib::thread::Builder, lib::thread::Scope<'static, 'static>,
            lib::thread::ScopedJoinHandle<'static, u8>,
        ]
    };
}

#[test]
fn the_probe_tells_what_holds() {
    assert_eq!(traits!(u8), [true; 5]);
    assert_eq!(traits!(Rc<u8>)[..2], [false, false]);
    assert_eq!(traits!(std::sync::mpsc::Receiver<u8>)[..2], [true, false]);
    assert_eq!(traits!(std::sync::MutexGuard<'static, u8>)[..2], [false, true]);
    assert!(!traits!(&'static mut u8)[3]);
}

#[test]
fn each_type_has_stds() {
    let differs: Vec<_> =
        types!(pct).into_iter().zip(types!(std)).filter(|(ours, theirs)| ours != theirs).collect();
    assert!(
        differs.is_empty(),
        "Send, Sync, Unpin, UnwindSafe, RefUnwindSafe:\n{}",
        differs.iter().map(|it| format!("{it:?}\n")).collect::<String>()
    );
}

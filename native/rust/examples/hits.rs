//! Two threads count a hit each, and one hit is lost: the first example of README.

use pct::sync::atomic::{AtomicUsize, Ordering::SeqCst};
use pct::{sync::Arc, thread};

fn main() {
    pct::check(|| {
        let hits = Arc::new(AtomicUsize::new(0));
        let page = [1, 2].map(|_| {
            let hits = hits.clone();
            thread::spawn(move || {
                let seen = hits.load(SeqCst);
                hits.store(seen + 1, SeqCst);
            })
        });
        for reader in page {
            reader.join().unwrap();
        }
        assert_eq!(hits.load(SeqCst), 2);
    });
}

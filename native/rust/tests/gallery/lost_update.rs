// A lost update: two threads count up by a read and a write, and one of them writes what the other has just made old.
pub fn test() -> impl pct::Test { pct::threads(|t| {
let counter = named("counter", AtomicI64::new(0));

{ let counter = counter.clone(); t.thread("A", move || { let mut r0 = 0i64;
  r0 = counter.load(SeqCst);
  counter.store(r0 + 1, SeqCst); // B may have counted since the read
}); }

{ let counter = counter.clone(); t.thread("B", move || { let mut r0 = 0i64;
  r0 = counter.load(SeqCst);
  counter.store(r0 + 1, SeqCst);
}); }

{ let counter = counter.clone(); t.thread("Check", move || { let mut r0 = 0i64;
  pct::join("A");
  pct::join("B");
  r0 = counter.load(SeqCst);
  pct::holds(r0 == 2);
}); } }) }

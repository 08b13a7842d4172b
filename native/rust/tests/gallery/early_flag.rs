// A flag that is set before its data: the two are written by two threads, and nothing makes the second wait for the first.
pub fn test() -> impl pct::Test { pct::threads(|t| {
let data = named("data", AtomicI64::new(0));
let is_there = named("is_there", AtomicI64::new(0));

{ let data = data.clone(); t.thread("Writer", move || {
  data.store(42, SeqCst);
}); }

{ let is_there = is_there.clone(); t.thread("Publisher", move || {
  is_there.store(1, SeqCst); // says that the data is there
}); }

{ let is_there = is_there.clone(); let data = data.clone(); t.thread("Reader", move || { let mut r0 = 0i64; let mut r1 = 0i64;
  r0 = is_there.load(SeqCst);
  if r0 == 1 {
    r1 = data.load(SeqCst);
    pct::holds(r1 == 42); // fails where the publisher was before the writer
  }
}); } }) }

// The publisher waits for the writer before it sets the flag.
pub fn test() -> impl pct::Test { pct::threads(|t| {
let data = named("data", AtomicI64::new(0));
let is_there = named("is_there", AtomicI64::new(0));

{ let data = data.clone(); t.thread("Writer", move || {
  data.store(42, SeqCst);
}); }

{ let is_there = is_there.clone(); t.thread("Publisher", move || {
  pct::join("Writer");
  is_there.store(1, SeqCst);
}); }

{ let is_there = is_there.clone(); let data = data.clone(); t.thread("Reader", move || { let mut r0 = 0i64; let mut r1 = 0i64;
  r0 = is_there.load(SeqCst);
  if r0 == 1 {
    r1 = data.load(SeqCst);
    pct::holds(r1 == 42);
  }
}); } }) }

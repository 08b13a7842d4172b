// Two threads count up, each in one step.
pub fn test() -> impl pct::Test { pct::threads(|t| {
let counter = named("counter", AtomicI64::new(0));

{ let counter = counter.clone(); t.thread("A", move || { let mut r0 = 0i64;
  r0 = counter.fetch_add(1, SeqCst);
}); }

{ let counter = counter.clone(); t.thread("B", move || { let mut r0 = 0i64;
  r0 = counter.fetch_add(1, SeqCst);
}); }

{ let counter = counter.clone(); t.thread("Check", move || { let mut r0 = 0i64;
  pct::join("A");
  pct::join("B");
  r0 = counter.load(SeqCst);
  pct::holds(r0 == 2);
}); } }) }

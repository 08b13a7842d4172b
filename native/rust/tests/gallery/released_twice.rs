// A semaphore used as a mutex and released twice: from then on two threads may be inside at once.
pub fn test() -> impl pct::Test { pct::threads(|t| {
let s = named("s", Semaphore::new(1));
let inside = named("inside", AtomicI64::new(0));

{ let s = s.clone(); let inside = inside.clone(); t.thread("A", move || { let mut r0 = 0i64;
  s.down();
  r0 = inside.fetch_add(1, SeqCst);
  pct::holds(r0 == 0);
  r0 = inside.fetch_add(-1, SeqCst);
  s.up();
  s.up(); // again, as on the way out of an error
}); }

{ let s = s.clone(); let inside = inside.clone(); t.thread("B", move || { let mut r0 = 0i64;
  s.down();
  r0 = inside.fetch_add(1, SeqCst);
  pct::holds(r0 == 0);
  r0 = inside.fetch_add(-1, SeqCst);
  s.up();
}); }

{ let s = s.clone(); let inside = inside.clone(); t.thread("C", move || { let mut r0 = 0i64;
  s.down();
  r0 = inside.fetch_add(1, SeqCst);
  pct::holds(r0 == 0);
  r0 = inside.fetch_add(-1, SeqCst);
  s.up();
}); } }) }

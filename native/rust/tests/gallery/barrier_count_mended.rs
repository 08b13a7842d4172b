// The barrier holds the workers until all four have arrived.
pub fn test() -> impl pct::Test { pct::threads(|t| {
let all = named("all", Barrier::new(4));
let parts = named("parts", AtomicI64::new(0));

{ let parts = parts.clone(); let all = all.clone(); t.thread("A", move || { let mut r0 = 0i64; let mut r1 = 0i64;
  r0 = parts.fetch_add(1, SeqCst);
  r1 = i64::from(all.wait().is_leader());
  r0 = parts.load(SeqCst);
  pct::holds(r0 == 4);
}); }

{ let parts = parts.clone(); let all = all.clone(); t.thread("B", move || { let mut r0 = 0i64; let mut r1 = 0i64;
  r0 = parts.fetch_add(1, SeqCst);
  r1 = i64::from(all.wait().is_leader());
  r0 = parts.load(SeqCst);
  pct::holds(r0 == 4);
}); }

{ let parts = parts.clone(); let all = all.clone(); t.thread("C", move || { let mut r0 = 0i64; let mut r1 = 0i64;
  r0 = parts.fetch_add(1, SeqCst);
  r1 = i64::from(all.wait().is_leader());
  r0 = parts.load(SeqCst);
  pct::holds(r0 == 4);
}); }

{ let parts = parts.clone(); let all = all.clone(); t.thread("D", move || { let mut r0 = 0i64; let mut r1 = 0i64;
  r0 = parts.fetch_add(1, SeqCst);
  r1 = i64::from(all.wait().is_leader());
  r0 = parts.load(SeqCst);
  pct::holds(r0 == 4);
}); } }) }

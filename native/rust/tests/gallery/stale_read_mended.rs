// A waits for B before it changes x.
pub fn test() -> impl pct::Test { pct::threads(|t| {
let x = named("x", AtomicI64::new(0));

{ let x = x.clone(); t.thread("A", move || { let mut r0 = 0i64;
  pct::join("B");
  r0 = x.load(SeqCst);
  x.store(1, SeqCst);
}); }

{ let x = x.clone(); t.thread("B", move || { let mut r0 = 0i64;
  r0 = x.load(SeqCst);
  pct::holds(r0 == 0);
}); } }) }

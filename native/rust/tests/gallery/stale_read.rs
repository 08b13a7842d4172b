pub fn test() -> impl pct::Test { pct::threads(|t| { // A stale read: B wants to see x before A has changed it,
let x = named("x", AtomicI64::new(0)); // and nothing keeps the two in this order.
{ let x = x.clone(); t.thread("A", move || { let mut r0 = 0i64;
  r0 = x.load(SeqCst);
  x.store(1, SeqCst); // from here on x is 1
}); }
{ let x = x.clone(); t.thread("B", move || { let mut r0 = 0i64;
  r0 = x.load(SeqCst);
  pct::holds(r0 == 0); // fails where A has written before
}); } }) }

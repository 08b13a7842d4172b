// The owner wins the last item by a cas on the top, or leaves it to the thief.
pub fn test() -> impl pct::Test { pct::threads(|t| {
let top = named("top", AtomicI64::new(0));
let bottom = named("bottom", AtomicI64::new(2)); // the items 0 and 1 are there
let taken0 = named("taken0", AtomicI64::new(0));
let taken1 = named("taken1", AtomicI64::new(0));

{ let bottom = bottom.clone(); let top = top.clone(); let taken0 = taken0.clone(); let taken1 = taken1.clone(); t.thread("Owner", move || { let mut r0 = 0i64; let mut r1 = 0i64; let mut r2 = 0i64; let mut r3 = 0i64; let mut r5 = 0i64;
  while r5 < 2 {
    r5 = r5 + 1;
    r1 = bottom.load(SeqCst);
    r1 = r1 - 1;
    bottom.store(r1, SeqCst);
    r0 = top.load(SeqCst);
    if r0 < r1 {
      r2 = 1;
    } else {
      r2 = 0;
      if r0 == r1 {
        r2 = i64::from(top.compare_exchange(r0, r0 + 1, SeqCst, SeqCst).is_ok());
      }
      bottom.store(r0 + 1, SeqCst);
    }
    if r2 != 0 {
      if r1 == 0 {
        r3 = taken0.fetch_add(1, SeqCst);
      } else {
        r3 = taken1.fetch_add(1, SeqCst);
      }
    }
  }
}); }

{ let top = top.clone(); let bottom = bottom.clone(); let taken0 = taken0.clone(); let taken1 = taken1.clone(); t.thread("Thief", move || { let mut r0 = 0i64; let mut r1 = 0i64; let mut r2 = 0i64; let mut r3 = 0i64;
  r0 = top.load(SeqCst);
  r1 = bottom.load(SeqCst);
  if r0 < r1 {
    r2 = i64::from(top.compare_exchange(r0, r0 + 1, SeqCst, SeqCst).is_ok());
    if r2 != 0 {
      if r0 == 0 {
        r3 = taken0.fetch_add(1, SeqCst);
      } else {
        r3 = taken1.fetch_add(1, SeqCst);
      }
    }
  }
}); }

{ let taken0 = taken0.clone(); let taken1 = taken1.clone(); t.thread("Check", move || { let mut r0 = 0i64; let mut r1 = 0i64;
  pct::join("Owner");
  pct::join("Thief");
  r0 = taken0.load(SeqCst);
  r1 = taken1.load(SeqCst);
  pct::holds((r0 == 1) && (r1 == 1));
}); } }) }

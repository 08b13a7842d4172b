// A stack of two cells by compare and swap, where a cell that was taken comes back (ABA): A sees cell 1 on top and cell 2
// below it. B takes both and puts cell 1 back. A's swap finds cell 1 on top again, and makes cell 2 the top, which B holds.
pub fn test() -> impl pct::Test { pct::threads(|t| {
let top = named("top", AtomicI64::new(1));
let below1 = named("below1", AtomicI64::new(2));
let below2 = named("below2", AtomicI64::new(0));
let kept = named("kept", AtomicI64::new(0));

{ let top = top.clone(); let below1 = below1.clone(); let below2 = below2.clone(); t.thread("A", move || { let mut r0 = 0i64; let mut r1 = 0i64; let mut r2 = 0i64; // takes one cell
  while r2 == 0 {
    r0 = top.load(SeqCst);
    if r0 == 0 {
      r2 = 1; // empty
    } else {
      if r0 == 1 {
        r1 = below1.load(SeqCst);
      } else {
        r1 = below2.load(SeqCst);
      }
      r2 = i64::from(top.compare_exchange(r0, r1, SeqCst, SeqCst).is_ok());
    }
  }
}); }

{ let top = top.clone(); let below1 = below1.clone(); let below2 = below2.clone(); let kept = kept.clone(); t.thread("B", move || { let mut r0 = 0i64; let mut r1 = 0i64; let mut r2 = 0i64; let mut r3 = 0i64; let mut r4 = 0i64; let mut r5 = 0i64; // takes two cells, keeps the second, and puts the first back
  while r3 < 2 {
    r2 = 0;
    while r2 == 0 {
      r0 = top.load(SeqCst);
      if r0 == 0 {
        r2 = 1;
      } else {
        if r0 == 1 {
          r1 = below1.load(SeqCst);
        } else {
          r1 = below2.load(SeqCst);
        }
        r2 = i64::from(top.compare_exchange(r0, r1, SeqCst, SeqCst).is_ok());
      }
    }
    r4 = r5; // the first
    r5 = r0; // the second
    r3 = r3 + 1;
  }
  kept.store(r5, SeqCst);
  if r4 != 0 {
    r2 = 0;
    while r2 == 0 {
      r0 = top.load(SeqCst);
      if r4 == 1 {
        below1.store(r0, SeqCst);
      } else {
        below2.store(r0, SeqCst);
      }
      r2 = i64::from(top.compare_exchange(r0, r4, SeqCst, SeqCst).is_ok());
    }
  }
}); }

{ let top = top.clone(); let kept = kept.clone(); t.thread("Check", move || { let mut r0 = 0i64; let mut r1 = 0i64;
  pct::join("A");
  pct::join("B");
  r0 = top.load(SeqCst);
  r1 = kept.load(SeqCst);
  pct::holds((r0 != r1) || (r1 == 0));
}); } }) }

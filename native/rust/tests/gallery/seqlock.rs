// A seqlock whose reader doesn't look at the count a second time: the writer makes it odd, writes both halves, and makes it
// even. The reader takes an even count as enough, though the writer may come between its two reads.
pub fn test() -> impl pct::Test { pct::threads(|t| {
let count = named("count", AtomicI64::new(0));
let low = named("low", AtomicI64::new(0));
let high = named("high", AtomicI64::new(0));

{ let count = count.clone(); let low = low.clone(); let high = high.clone(); t.thread("Writer", move || { let mut r0 = 0i64; let mut r1 = 0i64;
  while r1 < 2 {
    r1 = r1 + 1;
    r0 = count.fetch_add(1, SeqCst);
    low.store(r1, SeqCst);
    high.store(r1, SeqCst);
    r0 = count.fetch_add(1, SeqCst);
  }
}); }

{ let count = count.clone(); let low = low.clone(); let high = high.clone(); t.thread("Reader", move || { let mut r0 = 0i64; let mut r1 = 0i64; let mut r2 = 0i64;
  r0 = count.load(SeqCst);
  if r0 % 2 == 0 {
    r1 = low.load(SeqCst);
    r2 = high.load(SeqCst); // is it of the same writing?
    pct::holds(r1 == r2);
  }
}); } }) }

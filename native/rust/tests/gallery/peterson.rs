// Peterson's lock for two threads, whose flag is raised too late: after the turn was given away, and not before. Each looks at
// most three times, and goes home where it wasn't let in.
pub fn test() -> impl pct::Test { pct::threads(|t| {
let flag_a = named("flag_a", AtomicI64::new(0));
let flag_b = named("flag_b", AtomicI64::new(0));
let turn = named("turn", AtomicI64::new(0)); // 1: A goes first, 2: B
let inside = named("inside", AtomicI64::new(0));

{ let turn = turn.clone(); let flag_a = flag_a.clone(); let flag_b = flag_b.clone(); let inside = inside.clone(); t.thread("A", move || { let mut r0 = 0i64; let mut r2 = 0i64; let mut r3 = 0i64;
  turn.store(2, SeqCst);
  flag_a.store(1, SeqCst); // too late: B may have looked since
  r2 = 1;
  while (r2 != 0) && (r3 < 3) {
    r3 = r3 + 1;
    r2 = flag_b.load(SeqCst);
    if r2 != 0 {
      r0 = turn.load(SeqCst);
      r2 = i64::from(r0 == 2);
    }
  }
  if r2 == 0 {
    r0 = inside.fetch_add(1, SeqCst);
    pct::holds(r0 == 0);
    r0 = inside.fetch_add(-1, SeqCst);
  }
  flag_a.store(0, SeqCst);
}); }

{ let turn = turn.clone(); let flag_b = flag_b.clone(); let flag_a = flag_a.clone(); let inside = inside.clone(); t.thread("B", move || { let mut r0 = 0i64; let mut r2 = 0i64; let mut r3 = 0i64;
  turn.store(1, SeqCst);
  flag_b.store(1, SeqCst);
  r2 = 1;
  while (r2 != 0) && (r3 < 3) {
    r3 = r3 + 1;
    r2 = flag_a.load(SeqCst);
    if r2 != 0 {
      r0 = turn.load(SeqCst);
      r2 = i64::from(r0 == 1);
    }
  }
  if r2 == 0 {
    r0 = inside.fetch_add(1, SeqCst);
    pct::holds(r0 == 0);
    r0 = inside.fetch_add(-1, SeqCst);
  }
  flag_b.store(0, SeqCst);
}); } }) }

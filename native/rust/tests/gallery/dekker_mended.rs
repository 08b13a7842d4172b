// Each waits until its buffer is empty, which is the fence, and looks at the other's flag only then.
pub fn test() -> impl pct::Test { pct::threads(|t| {
let flag_a = named("flag_a", AtomicI64::new(0));
let flag_b = named("flag_b", AtomicI64::new(0));
let turn = named("turn", AtomicI64::new(1)); // 1: A's, 2: B's
let inside = named("inside", AtomicI64::new(0));
let a_is_buffered = named("a_is_buffered", Semaphore::new(0));
let b_is_buffered = named("b_is_buffered", Semaphore::new(0));
let a_is_written = named("a_is_written", Semaphore::new(0));
let b_is_written = named("b_is_written", Semaphore::new(0));

{ let a_is_buffered = a_is_buffered.clone(); let a_is_written = a_is_written.clone(); let flag_b = flag_b.clone(); let turn = turn.clone(); let inside = inside.clone(); let flag_a = flag_a.clone(); t.thread("A", move || { let mut r0 = 0i64; let mut r1 = 0i64; let mut r2 = 0i64;
  a_is_buffered.up();
  a_is_written.down();
  r1 = flag_b.load(SeqCst);
  while (r1 != 0) && (r2 < 2) {
    r2 = r2 + 1;
    r0 = turn.load(SeqCst);
    if r0 == 1 {
      r1 = flag_b.load(SeqCst);
    } else {
      r2 = 2;
    }
  }
  if r1 == 0 {
    r0 = inside.fetch_add(1, SeqCst);
    pct::holds(r0 == 0);
    r0 = inside.fetch_add(-1, SeqCst);
    turn.store(2, SeqCst);
  }
  flag_a.store(0, SeqCst);
}); }

{ let b_is_buffered = b_is_buffered.clone(); let b_is_written = b_is_written.clone(); let flag_a = flag_a.clone(); let turn = turn.clone(); let inside = inside.clone(); let flag_b = flag_b.clone(); t.thread("B", move || { let mut r0 = 0i64; let mut r1 = 0i64; let mut r2 = 0i64;
  b_is_buffered.up();
  b_is_written.down();
  r1 = flag_a.load(SeqCst);
  while (r1 != 0) && (r2 < 2) {
    r2 = r2 + 1;
    r0 = turn.load(SeqCst);
    if r0 == 2 {
      r1 = flag_a.load(SeqCst);
    } else {
      r2 = 2;
    }
  }
  if r1 == 0 {
    r0 = inside.fetch_add(1, SeqCst);
    pct::holds(r0 == 0);
    r0 = inside.fetch_add(-1, SeqCst);
    turn.store(1, SeqCst);
  }
  flag_b.store(0, SeqCst);
}); }

{ let a_is_buffered = a_is_buffered.clone(); let flag_a = flag_a.clone(); let a_is_written = a_is_written.clone(); t.thread("BufferOfA", move || {
  a_is_buffered.down();
  flag_a.store(1, SeqCst);
  a_is_written.up();
}); }

{ let b_is_buffered = b_is_buffered.clone(); let flag_b = flag_b.clone(); let b_is_written = b_is_written.clone(); t.thread("BufferOfB", move || {
  b_is_buffered.down();
  flag_b.store(1, SeqCst);
  b_is_written.up();
}); } }) }

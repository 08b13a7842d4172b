// Each look at the flag is under the lock, so who finds it set finds the value.
pub fn test() -> impl pct::Test { pct::threads(|t| {
let is_made = named("is_made", AtomicI64::new(0));
let value = named("value", AtomicI64::new(0));
let m = named("m", Mutex::new(()));

{ let m = m.clone(); let is_made = is_made.clone(); let value = value.clone(); t.thread("A", move || { let mut r0 = 0i64; let mut m_held = None;
  m_held = Some(m.lock().unwrap());
  r0 = is_made.load(SeqCst);
  if r0 == 0 {
    is_made.store(1, SeqCst);
    value.store(42, SeqCst);
  }
  drop(m_held.take());
  r0 = value.load(SeqCst);
  pct::holds(r0 == 42);
}); }

{ let m = m.clone(); let is_made = is_made.clone(); let value = value.clone(); t.thread("B", move || { let mut r0 = 0i64; let mut m_held = None;
  m_held = Some(m.lock().unwrap());
  r0 = is_made.load(SeqCst);
  if r0 == 0 {
    is_made.store(1, SeqCst);
    value.store(42, SeqCst);
  }
  drop(m_held.take());
  r0 = value.load(SeqCst);
  pct::holds(r0 == 42);
}); } }) }

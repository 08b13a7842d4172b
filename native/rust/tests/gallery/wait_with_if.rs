// A wait with `if`: a taker that was woken takes an item without another look, but the other taker was there before it.
pub fn test() -> impl pct::Test { pct::threads(|t| {
let items = named("items", AtomicI64::new(0));
let m = named("m", Mutex::new(()));
let changed = named("changed", Condvar::new());

{ let m = m.clone(); let items = items.clone(); let changed = changed.clone(); t.thread("First", move || { let mut r0 = 0i64; let mut m_held = None;
  m_held = Some(m.lock().unwrap());
  r0 = items.load(SeqCst);
  if r0 == 0 {
    m_held = Some(changed.wait(m_held.take().unwrap()).unwrap());
  }
  r0 = items.load(SeqCst); // woken, but is there an item still?
  pct::holds(r0 > 0);
  items.store(r0 - 1, SeqCst);
  drop(m_held.take());
}); }

{ let m = m.clone(); let items = items.clone(); let changed = changed.clone(); t.thread("Second", move || { let mut r0 = 0i64; let mut m_held = None;
  m_held = Some(m.lock().unwrap());
  r0 = items.load(SeqCst);
  if r0 == 0 {
    m_held = Some(changed.wait(m_held.take().unwrap()).unwrap());
  }
  r0 = items.load(SeqCst);
  pct::holds(r0 > 0);
  items.store(r0 - 1, SeqCst);
  drop(m_held.take());
}); }

{ let m = m.clone(); let items = items.clone(); let changed = changed.clone(); t.thread("Putter", move || { let mut r0 = 0i64; let mut r1 = 0i64; let mut m_held = None;
  while r1 < 2 {
    m_held = Some(m.lock().unwrap());
    r0 = items.fetch_add(1, SeqCst);
    changed.notify_all();
    drop(m_held.take());
    r1 = r1 + 1;
  }
}); } }) }

// A buffer of one place with one condition for two conditions' work: a taker's signal that there is room may wake the other
// taker, who finds nothing and waits again, and the putter sleeps on.
pub fn test() -> impl pct::Test { pct::threads(|t| {
let full = named("full", AtomicI64::new(0));
let m = named("m", Mutex::new(()));
let changed = named("changed", Condvar::new());

{ let m = m.clone(); let full = full.clone(); let changed = changed.clone(); t.thread("Taker1", move || { let mut r0 = 0i64; let mut m_held = None;
  m_held = Some(m.lock().unwrap());
  r0 = full.load(SeqCst);
  while r0 == 0 {
    m_held = Some(changed.wait(m_held.take().unwrap()).unwrap());
    r0 = full.load(SeqCst);
  }
  full.store(0, SeqCst);
  changed.notify_one(); // is it the putter that waits longest?
  drop(m_held.take());
}); }

{ let m = m.clone(); let full = full.clone(); let changed = changed.clone(); t.thread("Taker2", move || { let mut r0 = 0i64; let mut m_held = None;
  m_held = Some(m.lock().unwrap());
  r0 = full.load(SeqCst);
  while r0 == 0 {
    m_held = Some(changed.wait(m_held.take().unwrap()).unwrap());
    r0 = full.load(SeqCst);
  }
  full.store(0, SeqCst);
  changed.notify_one();
  drop(m_held.take());
}); }

{ let m = m.clone(); let full = full.clone(); let changed = changed.clone(); t.thread("Putter", move || { let mut r0 = 0i64; let mut r1 = 0i64; let mut m_held = None;
  while r1 < 2 {
    m_held = Some(m.lock().unwrap());
    r0 = full.load(SeqCst);
    while r0 == 1 {
      m_held = Some(changed.wait(m_held.take().unwrap()).unwrap());
      r0 = full.load(SeqCst);
    }
    full.store(1, SeqCst);
    changed.notify_one();
    drop(m_held.take());
    r1 = r1 + 1;
  }
}); } }) }

// A bounded buffer whose producers test by `if`: a producer that was woken fills the place without another look, but the
// other producer was there before it. Two producers put twice each, and a consumer takes four.
pub fn test() -> impl pct::Test { pct::threads(|t| {
let full = named("full", AtomicI64::new(0));
let m = named("m", Mutex::new(()));
let room = named("room", Condvar::new());
let item = named("item", Condvar::new());

{ let m = m.clone(); let full = full.clone(); let room = room.clone(); let item = item.clone(); t.thread("P1", move || { let mut r0 = 0i64; let mut r1 = 0i64; let mut m_held = None;
  while r1 < 2 {
    m_held = Some(m.lock().unwrap());
    r0 = full.load(SeqCst);
    if r0 == 1 {
      m_held = Some(room.wait(m_held.take().unwrap()).unwrap());
    }
    r0 = full.load(SeqCst); // woken, but is there room still?
    pct::holds(r0 == 0);
    full.store(1, SeqCst);
    item.notify_one();
    drop(m_held.take());
    r1 = r1 + 1;
  }
}); }

{ let m = m.clone(); let full = full.clone(); let room = room.clone(); let item = item.clone(); t.thread("P2", move || { let mut r0 = 0i64; let mut r1 = 0i64; let mut m_held = None;
  while r1 < 2 {
    m_held = Some(m.lock().unwrap());
    r0 = full.load(SeqCst);
    if r0 == 1 {
      m_held = Some(room.wait(m_held.take().unwrap()).unwrap());
    }
    r0 = full.load(SeqCst);
    pct::holds(r0 == 0);
    full.store(1, SeqCst);
    item.notify_one();
    drop(m_held.take());
    r1 = r1 + 1;
  }
}); }

{ let m = m.clone(); let full = full.clone(); let item = item.clone(); let room = room.clone(); t.thread("Q", move || { let mut r0 = 0i64; let mut r1 = 0i64; let mut m_held = None;
  while r1 < 4 {
    m_held = Some(m.lock().unwrap());
    r0 = full.load(SeqCst);
    while r0 == 0 {
      m_held = Some(item.wait(m_held.take().unwrap()).unwrap());
      r0 = full.load(SeqCst);
    }
    full.store(0, SeqCst);
    room.notify_one();
    drop(m_held.take());
    r1 = r1 + 1;
  }
}); } }) }

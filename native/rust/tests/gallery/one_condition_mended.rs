// A buffer of one place with a condition for each thing that is waited for.
pub fn test() -> impl pct::Test { pct::threads(|t| {
let full = named("full", AtomicI64::new(0));
let m = named("m", Mutex::new(()));
let item = named("item", Condvar::new());
let room = named("room", Condvar::new());

{ let m = m.clone(); let full = full.clone(); let item = item.clone(); let room = room.clone(); t.thread("Taker1", move || { let mut r0 = 0i64; let mut m_held = None;
  m_held = Some(m.lock().unwrap());
  r0 = full.load(SeqCst);
  while r0 == 0 {
    m_held = Some(item.wait(m_held.take().unwrap()).unwrap());
    r0 = full.load(SeqCst);
  }
  full.store(0, SeqCst);
  room.notify_one();
  drop(m_held.take());
}); }

{ let m = m.clone(); let full = full.clone(); let item = item.clone(); let room = room.clone(); t.thread("Taker2", move || { let mut r0 = 0i64; let mut m_held = None;
  m_held = Some(m.lock().unwrap());
  r0 = full.load(SeqCst);
  while r0 == 0 {
    m_held = Some(item.wait(m_held.take().unwrap()).unwrap());
    r0 = full.load(SeqCst);
  }
  full.store(0, SeqCst);
  room.notify_one();
  drop(m_held.take());
}); }

{ let m = m.clone(); let full = full.clone(); let room = room.clone(); let item = item.clone(); t.thread("Putter", move || { let mut r0 = 0i64; let mut r1 = 0i64; let mut m_held = None;
  while r1 < 2 {
    m_held = Some(m.lock().unwrap());
    r0 = full.load(SeqCst);
    while r0 == 1 {
      m_held = Some(room.wait(m_held.take().unwrap()).unwrap());
      r0 = full.load(SeqCst);
    }
    full.store(1, SeqCst);
    item.notify_one();
    drop(m_held.take());
    r1 = r1 + 1;
  }
}); } }) }

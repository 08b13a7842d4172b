// A lost wake-up: the flag is tested before the mutex is taken, and the signal may come between the test and the wait.
pub fn test() -> impl pct::Test { pct::threads(|t| {
let ready = named("ready", AtomicI64::new(0));
let m = named("m", Mutex::new(()));
let is_ready = named("is_ready", Condvar::new());

{ let ready = ready.clone(); let m = m.clone(); let is_ready = is_ready.clone(); t.thread("Waiter", move || { let mut r0 = 0i64; let mut m_held = None;
  r0 = ready.load(SeqCst);
  if r0 == 0 {
    m_held = Some(m.lock().unwrap()); // the setter may have signalled since the read
    m_held = Some(is_ready.wait(m_held.take().unwrap()).unwrap());
    drop(m_held.take());
  }
}); }

{ let ready = ready.clone(); let m = m.clone(); let is_ready = is_ready.clone(); t.thread("Setter", move || {  let mut m_held = None;
  ready.store(1, SeqCst);
  m_held = Some(m.lock().unwrap());
  is_ready.notify_one();
  drop(m_held.take());
}); } }) }

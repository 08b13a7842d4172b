// The flag is tested and set under the mutex, so no signal comes between the test and the wait.
pub fn test() -> impl pct::Test { pct::threads(|t| {
let ready = named("ready", AtomicI64::new(0));
let m = named("m", Mutex::new(()));
let is_ready = named("is_ready", Condvar::new());

{ let m = m.clone(); let ready = ready.clone(); let is_ready = is_ready.clone(); t.thread("Waiter", move || { let mut r0 = 0i64; let mut m_held = None;
  m_held = Some(m.lock().unwrap());
  r0 = ready.load(SeqCst);
  while r0 == 0 {
    m_held = Some(is_ready.wait(m_held.take().unwrap()).unwrap());
    r0 = ready.load(SeqCst);
  }
  drop(m_held.take());
}); }

{ let m = m.clone(); let ready = ready.clone(); let is_ready = is_ready.clone(); t.thread("Setter", move || {  let mut m_held = None;
  m_held = Some(m.lock().unwrap());
  ready.store(1, SeqCst);
  is_ready.notify_one();
  drop(m_held.take());
}); } }) }

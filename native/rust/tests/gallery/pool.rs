// A pool of two workers that loses its wake-up at shutdown: it is closed without the mutex, and so perhaps between a worker's look
// and its wait.
pub fn test() -> impl pct::Test { pct::threads(|t| {
let jobs = named("jobs", AtomicI64::new(0));
let is_closed = named("is_closed", AtomicI64::new(0));
let m = named("m", Mutex::new(()));
let changed = named("changed", Condvar::new());

{ let m = m.clone(); let jobs = jobs.clone(); let changed = changed.clone(); let is_closed = is_closed.clone(); t.thread("Main", move || {  let mut m_held = None;
  m_held = Some(m.lock().unwrap());
  jobs.store(1, SeqCst);
  changed.notify_one();
  drop(m_held.take());
  is_closed.store(1, SeqCst); // without the mutex
  changed.notify_all();
}); }

{ let m = m.clone(); let jobs = jobs.clone(); let is_closed = is_closed.clone(); let changed = changed.clone(); t.thread("Worker1", move || { let mut r0 = 0i64; let mut r1 = 0i64; let mut r2 = 0i64; let mut m_held = None;
  m_held = Some(m.lock().unwrap());
  while r2 == 0 {
    r0 = jobs.load(SeqCst);
    if r0 != 0 {
      jobs.store(0, SeqCst);
    } else {
      r1 = is_closed.load(SeqCst);
      if r1 != 0 {
        r2 = 1;
      } else {
        m_held = Some(changed.wait(m_held.take().unwrap()).unwrap());
      }
    }
  }
  drop(m_held.take());
}); }

{ let m = m.clone(); let jobs = jobs.clone(); let is_closed = is_closed.clone(); let changed = changed.clone(); t.thread("Worker2", move || { let mut r0 = 0i64; let mut r1 = 0i64; let mut r2 = 0i64; let mut m_held = None;
  m_held = Some(m.lock().unwrap());
  while r2 == 0 {
    r0 = jobs.load(SeqCst);
    if r0 != 0 {
      jobs.store(0, SeqCst);
    } else {
      r1 = is_closed.load(SeqCst);
      if r1 != 0 {
        r2 = 1;
      } else {
        m_held = Some(changed.wait(m_held.take().unwrap()).unwrap());
      }
    }
  }
  drop(m_held.take());
}); } }) }

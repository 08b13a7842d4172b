// The readers are counted under a mutex, which the first one keeps while it waits for the room.
pub fn test() -> impl pct::Test { pct::threads(|t| {
let room = named("room", Semaphore::new(1));
let counting = named("counting", Mutex::new(()));
let readers = named("readers", AtomicI64::new(0));
let is_writing = named("is_writing", AtomicI64::new(0));

{ let room = room.clone(); let is_writing = is_writing.clone(); t.thread("Writer", move || {
  room.down();
  is_writing.store(1, SeqCst);
  pct::step();
  is_writing.store(0, SeqCst);
  room.up();
}); }

{ let counting = counting.clone(); let readers = readers.clone(); let room = room.clone(); let is_writing = is_writing.clone(); t.thread("Reader1", move || { let mut r0 = 0i64; let mut r1 = 0i64; let mut counting_held = None;
  counting_held = Some(counting.lock().unwrap());
  r0 = readers.fetch_add(1, SeqCst);
  if r0 == 0 {
    room.down();
  }
  drop(counting_held.take());
  r1 = is_writing.load(SeqCst);
  pct::holds(r1 == 0);
  counting_held = Some(counting.lock().unwrap());
  r0 = readers.fetch_add(-1, SeqCst);
  if r0 == 1 {
    room.up();
  }
  drop(counting_held.take());
}); }

{ let counting = counting.clone(); let readers = readers.clone(); let room = room.clone(); let is_writing = is_writing.clone(); t.thread("Reader2", move || { let mut r0 = 0i64; let mut r1 = 0i64; let mut counting_held = None;
  counting_held = Some(counting.lock().unwrap());
  r0 = readers.fetch_add(1, SeqCst);
  if r0 == 0 {
    room.down();
  }
  drop(counting_held.take());
  r1 = is_writing.load(SeqCst);
  pct::holds(r1 == 0);
  counting_held = Some(counting.lock().unwrap());
  r0 = readers.fetch_add(-1, SeqCst);
  if r0 == 1 {
    room.up();
  }
  drop(counting_held.take());
}); } }) }

// A read-write lock of semaphores whose readers are counted outside a mutex: the first reader takes the room for all, but while it
// still waits for it, the second one sees that it isn't the first, and goes in.
pub fn test() -> impl pct::Test { pct::threads(|t| {
let room = named("room", Semaphore::new(1));
let readers = named("readers", AtomicI64::new(0));
let is_writing = named("is_writing", AtomicI64::new(0));

{ let room = room.clone(); let is_writing = is_writing.clone(); t.thread("Writer", move || {
  room.down();
  is_writing.store(1, SeqCst);
  pct::step();
  is_writing.store(0, SeqCst);
  room.up();
}); }

{ let readers = readers.clone(); let room = room.clone(); let is_writing = is_writing.clone(); t.thread("Reader1", move || { let mut r0 = 0i64; let mut r1 = 0i64;
  r0 = readers.fetch_add(1, SeqCst);
  if r0 == 0 {
    room.down(); // the first one, for all
  }
  r1 = is_writing.load(SeqCst);
  pct::holds(r1 == 0);
  r0 = readers.fetch_add(-1, SeqCst);
  if r0 == 1 {
    room.up(); // the last one
  }
}); }

{ let readers = readers.clone(); let room = room.clone(); let is_writing = is_writing.clone(); t.thread("Reader2", move || { let mut r0 = 0i64; let mut r1 = 0i64;
  r0 = readers.fetch_add(1, SeqCst);
  if r0 == 0 {
    room.down();
  }
  r1 = is_writing.load(SeqCst);
  pct::holds(r1 == 0);
  r0 = readers.fetch_add(-1, SeqCst);
  if r0 == 1 {
    room.up();
  }
}); } }) }

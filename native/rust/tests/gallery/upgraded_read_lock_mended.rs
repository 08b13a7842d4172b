// The reader gives its hold back before it takes the lock to write, and looks again then.
pub fn test() -> impl pct::Test { pct::threads(|t| {
let l = named("l", RwLock::new(()));
let entry = named("entry", AtomicI64::new(0));

{ let l = l.clone(); let entry = entry.clone(); t.thread("Fill", move || { let mut r0 = 0i64;  let mut l_held = Holds::default();
  l_held.reads.push(l.read().unwrap());
  r0 = entry.load(SeqCst);
  l_held.drop_one();
  if r0 == 0 {
    l_held.write = Some(l.write().unwrap());
    r0 = entry.load(SeqCst);
    if r0 == 0 {
      entry.store(7, SeqCst);
    }
    l_held.drop_one();
  }
}); }

{ let l = l.clone(); let entry = entry.clone(); t.thread("Preload", move || {   let mut l_held = Holds::default();
  l_held.write = Some(l.write().unwrap());
  entry.store(7, SeqCst);
  l_held.drop_one();
}); } }) }

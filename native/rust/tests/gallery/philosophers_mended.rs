// Each philosopher takes the fork of the lower number first, the last one too.
pub fn test() -> impl pct::Test { pct::threads(|t| {
let fork1 = named("fork1", Mutex::new(()));
let fork2 = named("fork2", Mutex::new(()));
let fork3 = named("fork3", Mutex::new(()));
let fork4 = named("fork4", Mutex::new(()));
let fork5 = named("fork5", Mutex::new(()));

{ let fork1 = fork1.clone(); let fork2 = fork2.clone(); t.thread("P1", move || {  let mut fork1_held = None; let mut fork2_held = None;
  fork1_held = Some(fork1.lock().unwrap());
  fork2_held = Some(fork2.lock().unwrap());
  drop(fork2_held.take());
  drop(fork1_held.take());
}); }

{ let fork2 = fork2.clone(); let fork3 = fork3.clone(); t.thread("P2", move || {  let mut fork2_held = None; let mut fork3_held = None;
  fork2_held = Some(fork2.lock().unwrap());
  fork3_held = Some(fork3.lock().unwrap());
  drop(fork3_held.take());
  drop(fork2_held.take());
}); }

{ let fork3 = fork3.clone(); let fork4 = fork4.clone(); t.thread("P3", move || {  let mut fork3_held = None; let mut fork4_held = None;
  fork3_held = Some(fork3.lock().unwrap());
  fork4_held = Some(fork4.lock().unwrap());
  drop(fork4_held.take());
  drop(fork3_held.take());
}); }

{ let fork4 = fork4.clone(); let fork5 = fork5.clone(); t.thread("P4", move || {  let mut fork4_held = None; let mut fork5_held = None;
  fork4_held = Some(fork4.lock().unwrap());
  fork5_held = Some(fork5.lock().unwrap());
  drop(fork5_held.take());
  drop(fork4_held.take());
}); }

{ let fork1 = fork1.clone(); let fork5 = fork5.clone(); t.thread("P5", move || {  let mut fork1_held = None; let mut fork5_held = None;
  fork1_held = Some(fork1.lock().unwrap());
  fork5_held = Some(fork5.lock().unwrap());
  drop(fork5_held.take());
  drop(fork1_held.take());
}); } }) }

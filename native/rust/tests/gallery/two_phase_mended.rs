// A participant that has voted yes waits for the decision, however long it takes.
pub fn test() -> impl pct::Test { pct::threads(|t| {
let decision = named("decision", AtomicI64::new(0));
let done1 = named("done1", AtomicI64::new(0));
let done2 = named("done2", AtomicI64::new(0));
let votes = named("votes", Semaphore::new(0));
let for_first = named("for_first", Semaphore::new(0));
let for_second = named("for_second", Semaphore::new(0));

{ let votes = votes.clone(); let decision = decision.clone(); let for_first = for_first.clone(); let for_second = for_second.clone(); t.thread("Coordinator", move || {
  votes.down();
  votes.down();
  decision.store(1, SeqCst);
  for_first.up();
  for_second.up();
}); }

{ let votes = votes.clone(); let for_first = for_first.clone(); let decision = decision.clone(); let done1 = done1.clone(); t.thread("First", move || { let mut r0 = 0i64;
  votes.up();
  for_first.down();
  r0 = decision.load(SeqCst);
  done1.store(r0, SeqCst);
}); }

{ let votes = votes.clone(); let for_second = for_second.clone(); let decision = decision.clone(); let done2 = done2.clone(); t.thread("Second", move || { let mut r0 = 0i64;
  votes.up();
  for_second.down();
  r0 = decision.load(SeqCst);
  done2.store(r0, SeqCst);
}); }

{ let done1 = done1.clone(); let done2 = done2.clone(); t.thread("Check", move || { let mut r0 = 0i64; let mut r1 = 0i64;
  pct::join("First");
  pct::join("Second");
  r0 = done1.load(SeqCst);
  r1 = done2.load(SeqCst);
  pct::holds(r0 == r1);
}); } }) }

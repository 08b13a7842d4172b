// A thread that is started before what it reads is there.
pub fn test() -> impl pct::Test { pct::threads(|t| {
let config = named("config", AtomicI64::new(0));

t.thread("Main", move || { let for_worker = config.clone();
  let worker = thread::Builder::new().name("Worker".into()).spawn(move || worker(&for_worker)).unwrap();
  config.store(7, SeqCst); // the worker may have read it already
  worker.join().unwrap();
}); }) }

fn worker(config: &AtomicI64) {
  let r0 = config.load(SeqCst);
  pct::holds(r0 == 7);
}

// Both transfers lock the savings first.
pub fn test() -> impl pct::Test { pct::threads(|t| {
let savings = named("savings", AtomicI64::new(10));
let cheques = named("cheques", AtomicI64::new(10));
let of_savings = named("of_savings", Mutex::new(()));
let of_cheques = named("of_cheques", Mutex::new(()));

{ let of_savings = of_savings.clone(); let of_cheques = of_cheques.clone(); let cheques = cheques.clone(); let savings = savings.clone(); t.thread("Save", move || { let mut r0 = 0i64; let mut of_cheques_held = None; let mut of_savings_held = None;
  of_savings_held = Some(of_savings.lock().unwrap());
  of_cheques_held = Some(of_cheques.lock().unwrap());
  r0 = cheques.fetch_add(-3, SeqCst);
  r0 = savings.fetch_add(3, SeqCst);
  drop(of_cheques_held.take());
  drop(of_savings_held.take());
}); }

{ let of_savings = of_savings.clone(); let of_cheques = of_cheques.clone(); let savings = savings.clone(); let cheques = cheques.clone(); t.thread("Spend", move || { let mut r0 = 0i64; let mut of_cheques_held = None; let mut of_savings_held = None;
  of_savings_held = Some(of_savings.lock().unwrap());
  of_cheques_held = Some(of_cheques.lock().unwrap());
  r0 = savings.fetch_add(-5, SeqCst);
  r0 = cheques.fetch_add(5, SeqCst);
  drop(of_cheques_held.take());
  drop(of_savings_held.take());
}); } }) }

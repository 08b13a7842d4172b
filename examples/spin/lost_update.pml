/* Two threads count without a lock, as in ../lost_update.pct. With -DMENDED each counts in one step. */
int counter = 0;
byte ended = 0;

proctype Count() {
    int seen;
#ifdef MENDED
    atomic { seen = counter; counter = seen + 1 }
#else
    seen = counter;
    counter = seen + 1;
#endif
    atomic { ended++ }
}

init {
    atomic { run Count(); run Count() }
    ended == 2;
    assert(counter == 2)
}

/* Two mutexes taken in two orders, as in ../lock_order.pct. With -DMENDED both threads take them in one order. */
bool of_savings = false, of_cheques = false;
int savings = 10, cheques = 10;

inline lock(m) { atomic { !m -> m = true } }
inline unlock(m) { m = false }

active proctype Save() {
#ifdef MENDED
    lock(of_savings);
    lock(of_cheques);
#else
    lock(of_cheques);
    lock(of_savings);
#endif
    cheques = cheques - 3;
    savings = savings + 3;
    unlock(of_savings);
    unlock(of_cheques)
}

active proctype Spend() {
    lock(of_savings);
    lock(of_cheques);
    savings = savings - 5;
    cheques = cheques + 5;
    unlock(of_cheques);
    unlock(of_savings)
}

/* Peterson's lock for two threads, whose flag is raised too late, as in ../peterson.pct; but a thread that isn't let in waits as
   long as it takes, and each goes in again and again. With -DMENDED the flag is raised first. */
bool flag[2];
byte turn, inside;

active [2] proctype Thread() {
    do
    ::
#ifdef MENDED
        flag[_pid] = true;
        turn = 1 - _pid;
#else
        turn = 1 - _pid;
        flag[_pid] = true;
#endif
        (!flag[1 - _pid] || turn == _pid);
        inside++;
        assert(inside == 1);
        inside--;
        flag[_pid] = false
    od
}

/* Part of pct_test.c: mutexes, conditions, semaphores, barriers: each call is a step, refused ones
 * too. */

int pct_object_at(PctKind kind, PctObject *object, PctAskKind ask, PctPlace place) {
    int64_t answer = step(ask, number_of(kind, object, place), 0, place);
    if (answer || !(TRIES & BIT(ask))) return 0;
    return ask == PCT_ASK_TRY_DOWN ? EAGAIN : EBUSY;
}

int(pct_mutex_init)(pct_mutex_t *mutex, int kind) {
    if (kind < PCT_MUTEX_NORMAL || kind > PCT_MUTEX_ERRORCHECK) return EINVAL;
    *mutex = (pct_mutex_t){ PCT_OBJECT(0), (uint32_t)kind, 0, 0 };
    return 0;
}

int pct_mutex_init_by(pct_mutex_t *mutex, const pthread_mutexattr_t *attributes) {
    int kind = PTHREAD_MUTEX_NORMAL;
    if (attributes && pthread_mutexattr_gettype(attributes, &kind) != 0) return EINVAL;
    if (kind == PTHREAD_MUTEX_RECURSIVE) return (pct_mutex_init)(mutex, PCT_MUTEX_RECURSIVE);
    bool is_checked = kind == PTHREAD_MUTEX_ERRORCHECK;
    return (pct_mutex_init)(mutex, is_checked ? PCT_MUTEX_ERRORCHECK : PCT_MUTEX_NORMAL);
}

int pct_mutex_destroy(pct_mutex_t *mutex) {
    if (is_of_run(&mutex->object) && mutex->owner) return EBUSY;
    return pct_object_destroy(PCT_MUTEXES, &mutex->object);
}

/* The mutex's number. Each run finds it free. */
static uint32_t number_of_mutex(pct_mutex_t *mutex, PctPlace place) {
    if (!is_of_run(&mutex->object)) mutex->owner = mutex->depth = 0;
    return number_of(PCT_MUTEXES, &mutex->object, place);
}

/* A mutex of another kind than the normal one answers some calls without a step of its own: it is
   taken once more, or once less, or it refuses. */
int pct_mutex_at(pct_mutex_t *mutex, PctAskKind ask, PctPlace place) {
    uint32_t me = me_at(place), number = number_of_mutex(mutex, place);
    bool is_own = mutex->owner == me + 1, is_unlock = ask == PCT_ASK_UNLOCK;
    bool is_counted = is_unlock ? !is_own || mutex->depth > 1 : is_own;
    if (mutex->kind != PCT_MUTEX_NORMAL && is_counted) {
        pct_step_at(place);
        if (is_unlock && !is_own) return EPERM;
        if (mutex->kind == PCT_MUTEX_ERRORCHECK) return ask == PCT_ASK_LOCK ? EDEADLK : EBUSY;
        mutex->depth += is_unlock ? UINT32_MAX : 1;
        return 0;
    }
    if (!step(ask, number, 0, place) && ask == PCT_ASK_TRY_LOCK) return EBUSY;
    mutex->owner = is_unlock ? 0 : me + 1;
    mutex->depth = !is_unlock;
    return 0;
}

int pct_cond_wait_at(pct_cond_t *cond, pct_mutex_t *mutex, PctPlace place, const char *mutex_name) {
    PctPlace of_mutex = { place.file, place.line, mutex_name };
    uint32_t number = number_of(PCT_CONDITIONS, &cond->object, place), me = me_at(place);
    uint32_t other = number_of_mutex(mutex, of_mutex), depth = mutex->depth;
    if (mutex->kind == PCT_MUTEX_ERRORCHECK && mutex->owner != me + 1) {
        pct_step_at(place);
        return EPERM;
    }
    step(PCT_ASK_RELEASE, number, other, place);
    mutex->owner = mutex->depth = 0;
    step(PCT_ASK_REGAIN, number, other, place);
    mutex->owner = me + 1;
    mutex->depth = depth;
    return 0;
}

int pct_by_errno(int refused) {
    if (refused) errno = refused;
    return refused ? -1 : 0;
}

int pct_sem_getvalue_at(pct_sem_t *sem, int *value, PctPlace place) {
    uint32_t number = number_of(PCT_SEMAPHORES, &sem->object, place);
    pct_step_at(place);
    *value = (int)run->now[PCT_SEMAPHORES][number];
    return 0;
}

int pct_barrier_wait_at(pct_barrier_t *barrier, PctPlace place) {
    uint32_t number = number_of(PCT_BARRIERS, &barrier->object, place);
    step(PCT_ASK_ARRIVE, number, 0, place);
    return step(PCT_ASK_LEAVE, number, 0, place) ? PCT_BARRIER_SERIAL_THREAD : 0;
}

bool pct_once_enter_at(pct_once_t *once, PctPlace place) {
    if (!is_of_run(&once->mutex.object)) once->is_done = false;
    pct_mutex_at(&once->mutex, PCT_ASK_LOCK, place);
    return !once->is_done;
}

int pct_once_leave_at(pct_once_t *once, bool is_done, PctPlace place) {
    once->is_done = is_done;
    return pct_mutex_at(&once->mutex, PCT_ASK_UNLOCK, place);
}

int pct_once_at(pct_once_t *once, void (*function)(void), PctPlace place) {
    if (pct_once_enter_at(once, place)) function();
    return pct_once_leave_at(once, true, place);
}

/*
 * Where a call came from: while runs are searched, by what instrumented functions put down as they
 * begin; of a run that is told, by unwinding, which also sees functions of libraries.
 */
#include "stand.h"

#include <unwind.h>

typedef struct Unwound {
    uintptr_t *frames;
    uint32_t count;
    bool is_past; /* past the call of the runtime */
} Unwound;

static _Unwind_Reason_Code keep_frame(struct _Unwind_Context *context, void *data) {
    Unwound *unwound = data;
    uintptr_t pc = _Unwind_GetIP(context);
    if (pc == 0 || unwound->count == MOST_FRAMES) return _URC_END_OF_STACK;
    if (unwound->is_past) unwound->frames[unwound->count++] = pc;
    unwound->is_past |= pc == unwound->frames[0];
    return _URC_NO_REASON;
}

void keep_frames(uintptr_t *frames) {
    Unwound unwound = { frames, 1, false };
    frames[0] = self.pc;
    for (uint32_t i = 1; i < MOST_FRAMES; i++)
        frames[i] = i <= self.depth ? self.calls[(self.depth - i) % MOST_CALLS] : 0;
    if (!shared->plan.is_loud) return;
    int32_t seat = self.seat;
    self.seat = -1; /* the unwinder's own locks are no steps */
    _Unwind_Backtrace(keep_frame, &unwound);
    self.seat = seat;
    self.pc = frames[0];
}

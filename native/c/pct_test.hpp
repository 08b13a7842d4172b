/*
 * Tests of C++ code under the PCT scheduler: types of pct in place of those of std, over
 * pct_test.h. C++17 and later, and header only beside pct_test.c, which is compiled as C.
 *
 * Calls on an object, and pct's own guards, carry the place where they stand. Of a step that std's
 * guards make, or an operator of an atomic, the place is looked up in debug information; without
 * that it has the line of its thread's last step that has one, and is told as `after` it. Memory
 * orders are taken, and all mean the sequentially consistent one. Timed forms never time out.
 */
#ifndef PCT_TEST_HPP
#define PCT_TEST_HPP

#include "parts/atomic.hpp"
#include "parts/futures.hpp"
#include "parts/guards.hpp"
#include "parts/sync.hpp"
#include "parts/threads.hpp"

namespace pct {

/* The name of an object in traces. */
template <class Object> void name(const Object &object, const char *called) {
    pct_name(object.key(), called);
}

} // namespace pct
#endif

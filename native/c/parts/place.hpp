/*
 * Part of pct_test.hpp: where a step stands.
 */
#ifndef PCT_TEST_PLACE_HPP
#define PCT_TEST_PLACE_HPP

#include "../pct_test.h"

namespace pct {

/* Where a call stands: the default argument is taken where the call is written. */
struct place {
    const char *file;
    int line;
    static constexpr place here(const char *file = __builtin_FILE(), int line = __builtin_LINE()) {
        return { file, line };
    }
    static constexpr place unknown() { return { nullptr, 0 }; }
    PctPlace of(const char *name) const { return { file, line, name }; }
};

} // namespace pct
#endif

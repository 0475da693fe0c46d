/* All builds. BUILDS names them, as BUILD(gcc_plain) BUILD(gcc_native). */
#include "baseline.h"

#define BUILD(name) extern const struct build name##_build;
BUILDS
#undef BUILD

#define BUILD(name) &name##_build,
const struct build *const baseline_builds[] = {BUILDS};
#undef BUILD

const size_t baseline_count = sizeof baseline_builds / sizeof *baseline_builds;

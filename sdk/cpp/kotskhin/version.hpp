// Which library this is.
#pragma once
#include "kotskhin.h"
#include <string>

namespace kotskhin {

// The version of the library, which also says where it was made without its proofs: "0.1.0, not proved".
inline std::string version() {
    return kit_version_text();
}

} // namespace kotskhin

// error: nonnull
#include <kotskhin.h>

int32_t opened(void) { return kit_gateway_open(NULL, 1); }

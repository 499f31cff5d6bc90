// error: unused-result
#include <kotskhin.h>

void opened(kit_gateway *gateway) { kit_gateway_open(gateway, 1); }

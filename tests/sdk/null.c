/* A null pointer that no compiler sees: UBSan stops at the call, by the attributes of the header. */
#include <kotskhin.h>

int main(int words, char **word) {
    kit_gateway *gateway = words > 100 ? (kit_gateway *)word : NULL;
    return kit_gateway_open(gateway, 1);
}

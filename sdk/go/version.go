package kotskhin

// #include "kotskhin.h"
import "C"

// LibraryVersion is that of the library, which also says where it was made without its proofs: "0.1.0, not proved".
func LibraryVersion() string {
	return C.GoString(C.kit_version_text())
}

package kotskhin

import (
	"os"
	"strings"
	"testing"
)

// KOTSKHIN_VERSION has what tests/sdk/quick.py wants of the library that it links.
func TestLibraryVersion(t *testing.T) {
	wanted := os.Getenv("KOTSKHIN_VERSION")
	if told := LibraryVersion(); wanted != "" && told != wanted || !strings.HasPrefix(told, Version) {
		t.Errorf("the version is %q, not %q", told, wanted)
	}
}

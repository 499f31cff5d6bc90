package otlp

import (
	"encoding/binary"
	"errors"
	"strings"
	"testing"
)

// taken is an answer: so many points were refused, for a reason.
func taken(refused uint64, why string) string {
	partial := "\x08" + varint(refused) + "\x12" + varint(uint64(len(why))) + why
	return "\x0a" + varint(uint64(len(partial))) + partial
}

func varint(value uint64) string {
	var made [binary.MaxVarintLen64]byte
	return string(made[:binary.PutUvarint(made[:], value)])
}

func TestAnswersAreRead(t *testing.T) {
	good := taken(3, "why")
	for _, test := range []struct {
		answer string
		points int64
		why    string
	}{
		{"", 0, ""}, {good, 3, "why"}, {taken(1<<40, strings.Repeat("w", 300)), 1 << 40, strings.Repeat("w", 300)},
		{"\x0a\x05\x12\x03why", 0, "why"}, {"\x0a\x00", 0, ""}, {"\x0a\x02\x08\x03", 3, ""}, {"\x0a\x03\x12\x01\xff", 0, "\uFFFD"},
		// (fields of other numbers and types; a field that comes twice; a number below 0)
		{"\x12\x01a\x1d1234\x21" + "12345678" + "\x28\x7f" + good, 3, "why"}, {"\x08\x05", 0, ""},
		{"\x0a\x09\x0a\x01a\x10\x07\x18\x07\x08\x03", 3, ""}, {good + "\x0a\x02\x08\x05", 5, "why"},
		{"\x0a\x0b\x08\xff\xff\xff\xff\xff\xff\xff\xff\xff\x01", -1, ""},
	} {
		if points, why, err := Rejected([]byte(test.answer)); points != test.points || why != test.why || err != nil {
			t.Errorf("%q: %d, %q, %v", test.answer, points, why, err)
		}
	}
	bad := []string{"\x00", "{}", "OK\n", "\x0a\x02\x08", good + "\x0a", good + "\x0b", "\x0a\x0c\x08" + strings.Repeat("\xff", 11)}
	for cut := 1; cut < len(good); cut++ {
		bad = append(bad, good[:cut])
	}
	for _, answer := range bad {
		if points, why, err := Rejected([]byte(answer)); points != 0 || why != "" || !errors.Is(err, ErrMalformed) {
			t.Errorf("%q: %d, %q, %v", answer, points, why, err)
		}
	}
}

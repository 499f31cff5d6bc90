package logs

import (
	"testing"
	"time"
)

func TestWhatComesOftenIsLoggedSeldom(t *testing.T) {
	var s Seldom
	now := time.Now()
	for _, test := range []struct {
		after  time.Duration
		wanted int
	}{{0, 1}, {1, 0}, {Pause - 1, 0}, {Pause, 3}, {2*Pause - 1, 0}, {3 * Pause, 2}} {
		if count, may := s.Add(1, now.Add(test.after)); count != test.wanted || may != (test.wanted > 0) {
			t.Fatal(test, count, may)
		}
	}
}

package logs

import (
	"sync"
	"time"
)

// Pause is how long it is at least from one line of a kind to the next.
const Pause = time.Minute

// Seldom says when something that may come often is to be logged.
type Seldom struct {
	lock  sync.Mutex
	last  time.Time
	count int
}

// Add adds to what came, and tells how much came since the last line where another one may be written.
func (s *Seldom) Add(more int, now time.Time) (count int, may bool) {
	s.lock.Lock()
	defer s.lock.Unlock()
	s.count += more
	if !s.last.IsZero() && now.Sub(s.last) < Pause {
		return 0, false
	}
	count, s.count, s.last = s.count, 0, now
	return count, true
}

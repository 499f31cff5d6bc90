package held

import (
	"errors"
	"fmt"
	"sort"
	"sync"
	"time"

	kotskhin "kotskhin.example/sdk/go"
)

// ErrFull says that something would make the gateway hold more than it may.
var ErrFull = errors.New("the gateway is full")

// Limits are the most that is held. Above a limit by an eighth nothing is taken that could add to it.
type Limits struct{ Points, Streams int }

type writer struct {
	service  string
	instance kotskhin.Instance
	start    uint64
}

func writerOf(i kotskhin.Incarnation) writer { return writer{i.Service, i.Instance, i.Start} }

// known is what is known of an incarnation: how many points there are at least, their newest time and when that came, and in the turn of
// which look something of it came.
type known struct {
	points int
	newest uint64
	moved  time.Time
	turn   uint64
}

// counts are what is known of whose points are held, and of which streams. How many points there are in all, the gateway tells. What is
// forgotten is known no more from the next look on, or at once to an archivist.
type counts struct {
	limits Limits

	lock sync.Mutex
	of   map[writer]known
	// Of each stream the turn in which it came.
	streams map[string]uint64
	// A look begins a turn.
	turn uint64
}

func newCounts(limits Limits) *counts {
	return &counts{limits: limits, of: map[writer]known{}, streams: map[string]uint64{}}
}

// grows tells how many points of these are new for sure: a writer of which p keys are known, and that has q, has q - p new ones.
func (c *counts) grows(of []kotskhin.Incarnation) (points int) {
	for _, i := range of {
		if more := i.Points - c.of[writerOf(i)].points; more > 0 {
			points += more
		}
	}
	return points
}

// admits tells whether there is room for points of these where so many are held, and whether they may have streams that are not known.
func (c *counts) admits(held int, of []kotskhin.Incarnation) (isNew bool, err error) {
	c.lock.Lock()
	defer c.lock.Unlock()
	more := c.grows(of)
	if more > 0 && held+more > c.limits.Points || held > c.limits.Points+c.limits.Points/8 {
		return false, fmt.Errorf("%w: it holds %d points and may hold %d", ErrFull, held, c.limits.Points)
	}
	return more > 0, nil
}

// isNew tells whether some of these have more points than are known.
func (c *counts) isNew(of []kotskhin.Incarnation) bool {
	c.lock.Lock()
	defer c.lock.Unlock()
	return c.grows(of) > 0
}

// admitsStreams tells whether there is room for these streams.
func (c *counts) admitsStreams(streams []kotskhin.Stream) error {
	c.lock.Lock()
	defer c.lock.Unlock()
	more := 0
	for _, stream := range streams {
		if _, ok := c.streams[nameOf(stream)]; !ok {
			more++
		}
	}
	if more > 0 && len(c.streams)+more > c.limits.Streams {
		return fmt.Errorf("%w: it has %d streams and may have %d", ErrFull, len(c.streams), c.limits.Streams)
	}
	return nil
}

// know notes that there are so many points at least of each of these, and streams that are held.
func (c *counts) know(of []kotskhin.Incarnation, streams []kotskhin.Stream, now time.Time) {
	c.lock.Lock()
	defer c.lock.Unlock()
	for _, i := range of {
		c.note(i, c.of[writerOf(i)].points, now)
	}
	for _, i := range streams {
		c.streams[nameOf(i)] = c.turn
	}
}

// note notes an incarnation that has so many points at least.
func (c *counts) note(i kotskhin.Incarnation, least int, now time.Time) {
	own, ok := c.of[writerOf(i)]
	if own.points = i.Points; own.points < least {
		own.points = least
	}
	if !ok || i.Newest > own.newest {
		own.newest, own.moved = i.Newest, now
	}
	own.turn = c.turn
	c.of[writerOf(i)] = own
}

// begin begins the turn of a look: what comes from now on may not be in it.
func (c *counts) begin() {
	c.lock.Lock()
	defer c.lock.Unlock()
	c.turn++
}

// recount notes what the look of this turn found, in the place of all that was known before.
func (c *counts) recount(of []kotskhin.Incarnation, streams []kotskhin.Stream, now time.Time) {
	c.lock.Lock()
	defer c.lock.Unlock()
	for _, i := range of {
		least := 0
		if own := c.of[writerOf(i)]; own.turn == c.turn {
			least = own.points
		}
		c.note(i, least, now)
	}
	for i, own := range c.of {
		if own.turn < c.turn {
			delete(c.of, i)
		}
	}
	for _, i := range streams {
		c.streams[nameOf(i)] = c.turn
	}
	for name, turn := range c.streams {
		if turn < c.turn {
			delete(c.streams, name)
		}
	}
}

// forget notes that nothing is held of these any more.
func (c *counts) forget(of []kotskhin.Incarnation) {
	c.lock.Lock()
	defer c.lock.Unlock()
	for _, i := range of {
		delete(c.of, writerOf(i))
	}
}

// endedOf are the incarnations of a service whose newest time came that long ago or longer, those that began first in front.
func (c *counts) endedOf(service string, length time.Duration, now time.Time) (all []kotskhin.Incarnation) {
	c.lock.Lock()
	defer c.lock.Unlock()
	for w, own := range c.of {
		if w.service == service && now.Sub(own.moved) >= length {
			all = append(all, kotskhin.Incarnation{
				Service: w.service, Instance: w.instance, Start: w.start, Newest: own.newest, Points: own.points,
			})
		}
	}
	sort.Slice(all, func(i, j int) bool {
		one, other := all[i], all[j]
		if one.Start != other.Start {
			return one.Start < other.Start
		}
		if one.Instance.High != other.Instance.High {
			return one.Instance.High < other.Instance.High
		}
		return one.Instance.Low < other.Instance.Low
	})
	return all
}

// newestOf is the newest time that is known of an incarnation; 0 where nothing is known of it.
func (c *counts) newestOf(i kotskhin.Incarnation) uint64 {
	c.lock.Lock()
	defer c.lock.Unlock()
	return c.of[writerOf(i)].newest
}

// knownStreams tells how many streams are known to be held.
func (c *counts) knownStreams() int {
	c.lock.Lock()
	defer c.lock.Unlock()
	return len(c.streams)
}

func nameOf(s kotskhin.Stream) string {
	return fmt.Sprintf("%q %q %q %d %v", s.Scope, s.Name, s.Unit, s.Shape, s.Bounds)
}

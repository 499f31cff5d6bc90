// Package archivist adopts incarnations that have ended: an archive's totals have their sums and histograms from then on, and the gateway
// forgets their points.
//
// That an incarnation has ended is a policy, and nothing that a gateway can know: nothing newer came of it for so long, while all peers
// were heard. What it reports after it was adopted counts nowhere.
package archivist

import (
	"context"
	"time"

	"kotskhin.example/service/internal/figures"
	"kotskhin.example/service/internal/gossip"
	"kotskhin.example/service/internal/held"
	"kotskhin.example/service/internal/logs"
	"kotskhin.example/service/internal/store"
)

// Most incarnations that are adopted at once, and how long that may take, but for the last of them: whoever brings something waits as long.
const (
	most    = 100
	longest = 20 * time.Millisecond
)

// Archivist adopts incarnations of services. No other gateway of those that tell each other may adopt those of the same service.
type Archivist struct {
	Held     *held.Held
	Store    *store.Store
	Gossip   *gossip.Gossip
	Figures  *figures.Figures
	Log      *logs.Logger
	Services []string
	// After is for how long nothing newer came of an incarnation that has ended, and Every how often is looked for such.
	After, Every time.Duration

	// When was looked last. Since when all peers were heard and this process ran, as far as was looked.
	looked, together time.Time
	isApart          bool
	shelves          []*shelf
}

// Run looks for what has ended, again and again, until the context ends.
func (a *Archivist) Run(ctx context.Context) {
	if len(a.Services) == 0 {
		return
	}
	a.begin()
	ticks := time.NewTicker(a.Every)
	defer ticks.Stop()
	for {
		select {
		case <-ticks.C:
			a.Turn(ctx)
		case <-ctx.Done():
			return
		}
	}
}

// begin has the time begin of all that is held.
func (a *Archivist) begin() {
	now := a.Held.Now()
	a.looked, a.together = now, now
}

// Turn adopts what has ended, once; what the context's end leaves is for a later turn.
func (a *Archivist) Turn(ctx context.Context) {
	if a.shelves == nil {
		for _, service := range a.Services {
			a.shelves = append(a.shelves, newShelf(service))
		}
	}
	now := a.Held.Now()
	hasRun := a.hasRun(now)
	areTogether := a.areTogether(now) && hasRun
	for _, shelf := range a.shelves {
		if isAlone := a.isAlone(shelf, now); !isAlone || !areTogether {
			continue
		}
		if err := a.adoptAll(ctx, shelf, now); err != nil {
			a.Log.Error("incarnations that have ended were not adopted", "service", shelf.service, "why", err)
		}
	}
}

// hasRun tells whether this process ran since it looked last. While one is stopped, starved or swapped out, what live workers bring waits
// in sockets, and what peers tell does, too: then the time of each incarnation begins anew.
func (a *Archivist) hasRun(now time.Time) bool {
	last := a.looked
	a.looked = now
	if last.IsZero() || elapsed(last, now) <= 2*a.Every {
		return true
	}
	a.together = now
	a.Log.Warn("this process was stopped or starved, so nothing is adopted for a while", "seconds", elapsed(last, now).Seconds(),
		"after", a.After)
	return false
}

// mayGoOn tells whether what had ended by a time may be adopted still: not where this process was stopped since.
func (a *Archivist) mayGoOn(now time.Time) bool {
	return a.hasRun(a.Held.Now()) && now.Sub(a.together) >= a.After
}

// elapsed is how much time passed. The monotonic clock goes on while a process is stopped, but not while the machine is suspended, or a
// virtual one is paused. After that the wall clock is ahead, or is set; so the longer time of both counts.
func elapsed(from, to time.Time) time.Duration {
	steady, wall := to.Sub(from), to.Round(0).Sub(from.Round(0))
	if wall > steady {
		return wall
	}
	return steady
}

// areTogether tells whether all peers were heard for as long as it takes to have ended: what a worker brings to one that is away is not
// known here.
func (a *Archivist) areTogether(now time.Time) bool {
	apart := a.Gossip.Apart()
	switch {
	case len(apart) > 0 && !a.isApart:
		a.Log.Warn("nothing is adopted while peers are away, and for a while after", "peers", apart, "after", a.After)
	case len(apart) == 0 && a.isApart:
		a.Log.Info("all peers are heard, so incarnations may end", "after", a.After)
	}
	if a.isApart = len(apart) > 0; a.isApart {
		a.together = now
	}
	return now.Sub(a.together) >= a.After
}

// isAlone tells whether no peer adopted of a service for as long: two would each adopt what ended, and it would count twice. What another
// one adopted is known here by then.
func (a *Archivist) isAlone(s *shelf, now time.Time) bool {
	rivals := a.Gossip.Rivals(s.service)
	if len(rivals) == 0 {
		return now.Sub(s.alone) >= a.After
	}
	s.alone = now
	if _, may := s.told.Add(1, now); may {
		a.Log.Warn("another gateway archives this service, so neither adopts: start one of them without it", "service", s.service,
			"peers", rivals)
	}
	return false
}

// Show sets the figures that are read when a page is made.
func (a *Archivist) Show(set func(family, labels string, value float64)) {
	for _, service := range a.Services {
		set(figures.Rivals, figures.Labels("service", service), float64(len(a.Gossip.Rivals(service))))
	}
}

// adoptAll adopts all of a service that had ended by a time, some at once.
func (a *Archivist) adoptAll(ctx context.Context, s *shelf, now time.Time) error {
	waiting, adopted := s.selectWaiting(a.Held.ListEnded(s.service, a.After, now)), 0
	before, _ := a.Held.Counts()
	for len(waiting) > 0 && ctx.Err() == nil && a.mayGoOn(now) {
		front := waiting
		if len(front) > most {
			front = front[:most]
		}
		turn := &turn{Archivist: a, shelf: s, front: front}
		if err := a.Store.Adding(turn.run); err != nil {
			return err
		}
		waiting, adopted = waiting[turn.done:], adopted+len(turn.adopted)
	}
	if adopted > 0 {
		after, _ := a.Held.Counts()
		a.Log.Info("incarnations were adopted", "service", s.service, "incarnations", adopted, "points before", before, "points after", after)
	}
	return nil
}

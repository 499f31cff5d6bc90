package server

import (
	"sort"
	"strings"
	"sync"
	"time"

	"kotskhin.example/service/internal/figures"
	"kotskhin.example/service/internal/logs"
	"kotskhin.example/service/internal/otlp"
	"kotskhin.example/service/internal/tokens"
)

const (
	// Most services that have figures of their own, most bytes of the name of one, and most lines at a time: a sender names them.
	mostServices  = 100
	mostNameBytes = 128
	mostLines     = 20
	// What all services and reasons beyond that are called.
	others = "other"
)

// leftOut counts points of OTLP that were left out, by service and reason, and tells of them once in a while.
type leftOut struct {
	figures *figures.Figures
	log     *logs.Logger
	pause   time.Duration

	lock     sync.Mutex
	services map[string]bool
	// What came since the last lines, and what writes the next ones.
	since map[otlp.Left]*untold
	last  time.Time
	timer *time.Timer
}

type untold struct {
	points int
	from   string
}

func newLeftOut(to *figures.Figures, log *logs.Logger) *leftOut {
	return &leftOut{figures: to, log: log, pause: logs.Pause, services: map[string]bool{}, since: map[otlp.Left]*untold{}}
}

// add adds what was left out of a request. Services for which its sender may not speak have no figure of their own.
func (l *leftOut) add(left map[otlp.Left]int, grant tokens.Grant, from string) {
	if len(left) == 0 {
		return
	}
	l.lock.Lock()
	defer l.lock.Unlock()
	for key, points := range left {
		key.Service = l.nameOf(key.Service, grant)
		l.figures.Add(figures.PointsLost, figures.Labels("service", key.Service, "reason", key.Reason), float64(points))
		if l.since[key] == nil {
			l.since[key] = &untold{}
		}
		l.since[key].points += points
		l.since[key].from = from
	}
	if l.timer != nil {
		return
	}
	if rest := l.pause - time.Since(l.last); !l.last.IsZero() && rest > 0 {
		l.timer = time.AfterFunc(rest, l.tell)
		return
	}
	l.write()
}

// nameOf is what a service is called in figures.
func (l *leftOut) nameOf(service string, grant tokens.Grant) string {
	if len(service) > mostNameBytes {
		service = strings.ToValidUTF8(service[:mostNameBytes], "")
	}
	switch {
	case service == "" || l.services[service]:
		return service
	case len(l.services) >= mostServices || !grant.Allows(service):
		return others
	}
	l.services[service] = true
	return service
}

// tell tells what is not told yet.
func (l *leftOut) tell() {
	l.lock.Lock()
	defer l.lock.Unlock()
	l.timer = nil
	l.write()
}

func (l *leftOut) write() {
	l.last = time.Now()
	all := make([]otlp.Left, 0, len(l.since))
	for key := range l.since {
		all = append(all, key)
	}
	sort.Slice(all, func(i, j int) bool {
		if one, other := l.since[all[i]].points, l.since[all[j]].points; one != other {
			return one > other
		}
		return all[i].Service+" "+all[i].Reason < all[j].Service+" "+all[j].Reason
	})
	rest := 0
	for number, key := range all {
		if number >= mostLines {
			rest += l.since[key].points
			continue
		}
		l.line(key, *l.since[key])
	}
	if rest > 0 {
		l.line(otlp.Left{Service: others, Reason: others}, untold{points: rest})
	}
	l.since = map[otlp.Left]*untold{}
}

func (l *leftOut) line(key otlp.Left, u untold) {
	l.log.Warn("points of OTLP were left out", "service", key.Service, "reason", key.Reason, "points", u.points, "from", u.from)
}

package held

import (
	"sync"

	kotskhin "kotskhin.example/sdk/go"
)

// Look is what was held at some time: how many points, which streams, and the pages. It has all that was taken before it was asked for.
// What its gateway and its pages tell may be newer.
type Look struct {
	gateway kotskhin.Gateway
	changes uint64
	Points  int
	Streams []kotskhin.Stream

	openMetrics, prometheus page
}

type page struct {
	once sync.Once
	text string
	err  error
}

// Look is made once for all that ask, until something changes. It copies no points: others may ask meanwhile, and whoever brings something
// waits for as long as the kit takes to list them.
func (h *Held) Look() (*Look, error) {
	h.looking.Lock()
	defer h.looking.Unlock()
	if h.last != nil && h.last.changes == h.Changes() {
		return h.last, nil
	}
	look, err := h.look()
	if err != nil {
		return nil, err
	}
	h.last = look
	return look, nil
}

func (h *Held) look() (*Look, error) {
	look := &Look{gateway: h.gateway, changes: h.Changes()}
	h.counts.begin()
	of, err := h.gateway.Incarnations()
	if err != nil {
		return nil, err
	}
	if _, look.Points, err = h.gateway.Head(); err != nil {
		return nil, err
	}
	if look.Streams, err = allOf(h.gateway.Streams()); err != nil {
		return nil, err
	}
	h.counts.recount(of, look.Streams, h.Now())
	// (what can't be counted for want of memory is counted at the next look)
	_ = h.census.count(h.gateway, look.Streams)
	return look, nil
}

// Gateway is to be asked.
func (l *Look) Gateway() kotskhin.Gateway { return l.gateway }

// OpenMetrics is the page, which is made once for a look.
func (l *Look) OpenMetrics() (string, error) {
	return l.openMetrics.get(func() (string, error) { return l.gateway.OpenMetrics() })
}

// Prometheus is the page in the text format, which is made once for a look.
func (l *Look) Prometheus() (string, error) {
	return l.prometheus.get(func() (string, error) { return l.gateway.Prometheus() })
}

func (p *page) get(write func() (string, error)) (string, error) {
	p.once.Do(func() { p.text, p.err = write() })
	return p.text, p.err
}

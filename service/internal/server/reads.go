package server

import (
	"errors"
	"net/http"
	"os"
	"strconv"
	"strings"
	"sync/atomic"
	"time"

	kotskhin "kotskhin.example/sdk/go"
	"kotskhin.example/service/internal/figures"
	"kotskhin.example/service/internal/gossip"
	"kotskhin.example/service/internal/held"
	"kotskhin.example/service/internal/tokens"
)

const plainText = "text/plain; charset=utf-8"

// withLook has a worker call a function with what is held, before anything is written.
func (s *Server) withLook(request *http.Request, call func(look *held.Look) error) error {
	if ok, why := s.ready(); !ok {
		return refusal{http.StatusServiceUnavailable, "not_ready", why}
	}
	return s.withWorker(request, func() error {
		look, err := s.Held.Look()
		if err != nil {
			return err
		}
		return call(look)
	})
}

// metrics is the page for Prometheus.
func (s *Server) metrics(w http.ResponseWriter, request *http.Request, _ tokens.Grant) error {
	isOpenMetrics := strings.Contains(request.Header.Get("Accept"), "application/openmetrics-text")
	tombstones, err := asksForTombstones(request.URL.Query())
	if err != nil {
		return err
	}
	var page string
	if err := s.withLook(request, func(look *held.Look) (err error) {
		page, err = pageOf(look, isOpenMetrics, tombstones)
		return err
	}); err != nil {
		return err
	}
	kind := kotskhin.PrometheusType
	if isOpenMetrics {
		kind = kotskhin.OpenMetricsType
	}
	return writeText(w, kind, s.Figures.Page(page, isOpenMetrics))
}

// pageOf is a page, which is made once for all that ask. Few ask for tombstones: that page is made for each of them.
func pageOf(look *held.Look, isOpenMetrics, tombstones bool) (string, error) {
	switch {
	case isOpenMetrics && tombstones:
		return look.Gateway().OpenMetrics(kotskhin.WithTombstones())
	case isOpenMetrics:
		return look.OpenMetrics()
	case tombstones:
		return look.Gateway().Prometheus(kotskhin.WithTombstones())
	default:
		return look.Prometheus()
	}
}

// table is the table that answers an ask.
func (s *Server) table(w http.ResponseWriter, request *http.Request, _ tokens.Grant) error {
	var table string
	if err := s.withLook(request, func(look *held.Look) error {
		ask, _, err := openAsk(look, request.URL.Query())
		if err != nil {
			return err
		}
		defer ask.Close()
		table, err = look.Gateway().Table(ask)
		return err
	}); err != nil {
		return err
	}
	return writeText(w, plainText, table)
}

// rows is the same as data.
func (s *Server) rows(w http.ResponseWriter, request *http.Request, _ tokens.Grant) error {
	answer := struct {
		Stream jsonStream `json:"stream"`
		Rows   []jsonRow  `json:"rows"`
	}{Rows: []jsonRow{}}
	if err := s.withLook(request, func(look *held.Look) error {
		ask, stream, err := openAsk(look, request.URL.Query())
		if err != nil {
			return err
		}
		defer ask.Close()
		answer.Stream = streamOf(stream)
		rows, err := look.Gateway().Rows(ask)
		if err != nil {
			return err
		}
		defer rows.Close()
		all, err := rows.All()
		for _, row := range all {
			answer.Rows = append(answer.Rows, rowOf(row))
		}
		return err
	}); err != nil {
		return err
	}
	return asJSON(w, answer)
}

// streams lists what may be asked for.
func (s *Server) streams(w http.ResponseWriter, request *http.Request, _ tokens.Grant) error {
	streams := []jsonStream{}
	if err := s.withLook(request, func(look *held.Look) error {
		for _, stream := range look.Streams {
			streams = append(streams, streamOf(stream))
		}
		return nil
	}); err != nil {
		return err
	}
	return asJSON(w, map[string]any{"streams": streams})
}

// peers says who this gateway is, and how it stands with the others.
func (s *Server) peers(w http.ResponseWriter, _ *http.Request, _ tokens.Grant) error {
	return asJSON(w, gossip.Who{
		ID: s.Held.ID(), Process: s.Process, Folder: s.Gossip.Folder, Archives: s.Gossip.Archives, Peers: s.Gossip.States(),
	})
}

// gone has an operator name a peer that is missing as gone for good, so that incarnations may be adopted again.
func (s *Server) gone(w http.ResponseWriter, request *http.Request, grant tokens.Grant) error {
	named := request.URL.Query()["peer"]
	if len(named) != 1 || named[0] == "" {
		return badQuery("name a peer: %s?peer=ADDRESS, as %s has it", gossip.GonePath, gossip.PeersPath)
	}
	if !grant.IsAll() {
		return refusal{http.StatusForbidden, "service", "a token that names a peer as gone speaks for all services"}
	}
	err := s.Gossip.Gone(named[0])
	if errors.Is(err, gossip.ErrNotMissing) {
		return refusal{http.StatusNotFound, "no_peer", err.Error()}
	}
	if err != nil {
		return err
	}
	return writeText(w, plainText, "gone\n")
}

func (s *Server) healthz(w http.ResponseWriter, _ *http.Request, _ tokens.Grant) error {
	return writeText(w, plainText, "alive\n")
}

func (s *Server) readyz(w http.ResponseWriter, _ *http.Request, _ tokens.Grant) error {
	if atomic.LoadInt32(&s.draining) != 0 {
		return refusal{http.StatusServiceUnavailable, "draining", "the gateway is about to end"}
	}
	if ok, why := s.ready(); !ok {
		return refusal{http.StatusServiceUnavailable, "not_ready", why}
	}
	return writeText(w, plainText, "ready\n")
}

// ready tells whether what is held may be shown. A gateway that has just begun may hold less than it did: then counters would fall, so each
// peer that can be reached is heard first.
func (s *Server) ready() (ok bool, why string) {
	if atomic.LoadInt32(&s.isReady) != 0 {
		return true, ""
	}
	unheard := s.Gossip.UnheardPeers()
	if len(unheard) > 0 && time.Since(s.began) < s.Limits.Patience {
		return false, "peers were not heard yet: " + strings.Join(unheard, ", ")
	}
	atomic.StoreInt32(&s.isReady, 1)
	return true, ""
}

// Show sets the figures that are read when a page is made.
func (s *Server) Show(set func(family, labels string, value float64)) {
	points, streams := s.Held.Counts()
	set(figures.Held, "", float64(points))
	set(figures.Streams, "", float64(streams))
	set(figures.Started, "", float64(s.began.UnixNano())/1e9)
	if resident, ok := residentBytes(); ok {
		set(figures.Resident, "", resident)
	}
	set(figures.Doubled, "", float64(s.Held.Doubled().Count))
	missing := 0
	for _, peer := range s.Gossip.States() {
		if peer.State == gossip.Missing {
			missing++
		}
		if peer.State == gossip.Self || peer.State == gossip.Missing {
			continue
		}
		labels := figures.Labels("peer", peer.URL)
		set(figures.Lag, labels, peer.Lag)
		set(figures.Messages, labels, float64(peer.Sent))
		set(figures.Failed, labels, float64(peer.Failed))
	}
	set(figures.Missing, "", float64(missing))
	if s.Store == nil {
		return
	}
	last := s.Store.Last()
	if !last.At.IsZero() {
		set(figures.Saved, "", float64(last.At.UnixNano())/1e9)
	}
	set(figures.StateBytes, "", float64(last.Bytes))
	set(figures.NotSaved, "", float64(last.Failures))
	set(figures.Journal, "", float64(s.Store.Journal()))
}

// residentBytes is the memory of this process, where the system tells it.
func residentBytes() (float64, bool) {
	content, err := os.ReadFile("/proc/self/statm")
	words := strings.Fields(string(content))
	if err != nil || len(words) < 2 {
		return 0, false
	}
	pages, err := strconv.ParseFloat(words[1], 64)
	return pages * float64(os.Getpagesize()), err == nil
}

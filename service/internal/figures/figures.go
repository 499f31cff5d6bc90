// Package figures has a gateway's figures of itself, and writes them behind the page of what it holds.
package figures

import (
	"fmt"
	"sort"
	"strconv"
	"strings"
	"sync"
)

// A family has samples of one meaning. A counter's samples have a name of their own in the text format.
type family struct {
	name, help string
	isCounter  bool
}

// Names of families, which counters have `_total` behind.
const (
	Requests   = "kotskhin_gateway_requests"
	Refused    = "kotskhin_gateway_refused"
	Exports    = "kotskhin_gateway_exports"
	Points     = "kotskhin_gateway_points"
	PointsLost = "kotskhin_gateway_points_without_counterpart"
	Late       = "kotskhin_gateway_late_exports"
	Adopted    = "kotskhin_gateway_adopted"
	NotAdopted = "kotskhin_gateway_not_adopted"
	Sealed     = "kotskhin_gateway_archives_sealed"
	Rivals     = "kotskhin_gateway_archivists_conflict"
	Doubled    = "kotskhin_gateway_adopted_twice"
	Bytes      = "kotskhin_gateway_received_bytes"
	Seconds    = "kotskhin_gateway_request_seconds"
	Held       = "kotskhin_gateway_held_points"
	Streams    = "kotskhin_gateway_held_streams"
	Resident   = "kotskhin_gateway_resident_bytes"
	Lag        = "kotskhin_gateway_peer_lag_seconds"
	Missing    = "kotskhin_gateway_peers_missing"
	Messages   = "kotskhin_gateway_messages"
	Failed     = "kotskhin_gateway_messages_failed"
	Saved      = "kotskhin_gateway_state_saved_timestamp_seconds"
	StateBytes = "kotskhin_gateway_state_bytes"
	Journal    = "kotskhin_gateway_journal_bytes"
	NotSaved   = "kotskhin_gateway_state_failures"
	Connected  = "kotskhin_gateway_connections"
	Started    = "kotskhin_gateway_start_timestamp_seconds"
)

var families = []family{
	{Requests, "Requests that were answered, by path and status.", true},
	{Refused, "Requests that were refused, by path and reason.", true},
	{Seconds, "Seconds that requests took from their head to their answer, by path.", true},
	{Exports, "Exports that were taken, by path.", true},
	{Points, "Points of exports that were taken, by path.", true},
	{PointsLost, "Points of OTLP that have no counterpart, and were left out, by service and reason.", true},
	{Late, "Exports that came once their incarnation was adopted: nothing of them is taken, by path.", true},
	{Adopted, "Incarnations that this gateway adopted, and forgot, by service.", true},
	{NotAdopted, "Incarnations that had ended and could not be adopted, by reason.", true},
	{Sealed, "Archives that this gateway filled, by service.", true},
	{Rivals, "Peers that archive a service which this gateway archives, too: while there are any neither adopts, by service.", false},
	{Doubled, "Incarnations that two archives adopted, so that they count twice.", false},
	{Bytes, "Bytes of bodies that were read whole, by path.", true},
	{Held, "Points that are held, as far as is known.", false},
	{Streams, "Streams that are held, as far as is known.", false},
	{Resident, "Memory of the process.", false},
	{Connected, "Connections that are open.", false},
	{Lag, "How long ago all was told that a peer has acknowledged.", false},
	{Missing, "Peers that were listed once and are not any more: nothing is adopted until each is back, or named as gone.", false},
	{Messages, "Messages that a peer acknowledged.", true},
	{Failed, "Messages that a peer did not acknowledge.", true},
	{Saved, "When the state was saved.", false},
	{StateBytes, "Bytes of the state that was saved.", false},
	{Journal, "Bytes of what was taken since the state was saved.", false},
	{NotSaved, "How often the state could not be saved.", true},
	{Started, "When the process began.", false},
}

// Figures are counts, by their family and labels. They may be used by many goroutines.
type Figures struct {
	lock   sync.Mutex
	counts map[string]map[string]float64
	// What is read when it is asked.
	gauges []func(set func(family, labels string, value float64))
}

// New has no counts yet.
func New() *Figures { return &Figures{counts: map[string]map[string]float64{}} }

// Labels are names and values in turn, as a page has them.
func Labels(pairs ...string) string {
	var words []string
	for i := 0; i+1 < len(pairs); i += 2 {
		words = append(words, pairs[i]+`="`+escaped.Replace(pairs[i+1])+`"`)
	}
	return strings.Join(words, ",")
}

var escaped = strings.NewReplacer(`\`, `\\`, `"`, `\"`, "\n", `\n`)

// Add adds to a count.
func (f *Figures) Add(family, labels string, more float64) {
	f.lock.Lock()
	defer f.lock.Unlock()
	if f.counts[family] == nil {
		f.counts[family] = map[string]float64{}
	}
	f.counts[family][labels] += more
}

// Reads has a function called for each page: it sets figures.
func (f *Figures) Reads(call func(set func(family, labels string, value float64))) {
	f.lock.Lock()
	defer f.lock.Unlock()
	f.gauges = append(f.gauges, call)
}

func (f *Figures) all() map[string]map[string]float64 {
	all := map[string]map[string]float64{}
	set := func(family, labels string, value float64) {
		if all[family] == nil {
			all[family] = map[string]float64{}
		}
		all[family][labels] = value
	}
	f.lock.Lock()
	for family, counts := range f.counts {
		for labels, value := range counts {
			set(family, labels, value)
		}
	}
	gauges := f.gauges
	f.lock.Unlock()
	// (what is read may wait for somebody who adds to a count)
	for _, call := range gauges {
		call(set)
	}
	return all
}

// Page is the page of a gateway with these figures behind it. A family that the page has already is the senders', and is left to them.
func (f *Figures) Page(page string, isOpenMetrics bool) string {
	all := f.all()
	var out strings.Builder
	const end = "# EOF\n"
	out.WriteString(strings.TrimSuffix(page, end))
	for _, family := range families {
		samples, ok := all[family.name]
		name := family.name
		if family.isCounter && !isOpenMetrics {
			name += "_total"
		}
		if !ok || strings.Contains(page, "# TYPE "+name+" ") {
			continue
		}
		write(&out, family, name, samples)
	}
	if isOpenMetrics {
		out.WriteString(end)
	}
	return out.String()
}

func write(out *strings.Builder, f family, name string, samples map[string]float64) {
	kind, sample := "gauge", f.name
	if f.isCounter {
		kind, sample = "counter", f.name+"_total"
	}
	fmt.Fprintf(out, "# HELP %s %s\n# TYPE %s %s\n", name, f.help, name, kind)
	var all []string
	for labels := range samples {
		all = append(all, labels)
	}
	sort.Strings(all)
	for _, labels := range all {
		out.WriteString(sample)
		if labels != "" {
			out.WriteString("{" + labels + "}")
		}
		out.WriteString(" " + strconv.FormatFloat(samples[labels], 'f', -1, 64) + "\n")
	}
}

package metric

import (
	kotskhin "kotskhin.example/sdk/go"
	"kotskhin.example/sdk/go/attribute"
)

// The point of all sets of a stream beyond its limit (OpenTelemetry Metrics SDK, "Overflow attribute").
var overflow = attribute.Bool("otel.metric.overflow", true)

// limits are those of streams, of each of which it is told once that sets came beyond the limit.
type limits struct {
	limit   uint64
	streams kotskhin.Streams
	// Each stream by its number, and of how many it was not told yet.
	all    []kotskhin.Stream
	isTold []bool
	left   int
	// How many points were looked at last: what comes beyond the limit is one point more.
	points int
}

func newLimited(plan kotskhin.Plan, limit uint64) (*limits, error) {
	streams, err := plan.Streams()
	if err != nil {
		return nil, err
	}
	all, err := streams.All()
	if err != nil {
		return nil, err
	}
	return &limits{limit: limit, streams: streams, all: all, isTold: make([]bool, len(all)), left: len(all)}, nil
}

// findBeyond tells of which streams there are sets beyond the limit for the first time. An export that has no more points than the limit,
// or than the last one that was looked at, is not looked at. Where memory is refused the next one is.
func (l *limits) findBeyond(export kotskhin.Export) []Refusal {
	head, err := export.Head()
	if err != nil || l.left == 0 || head.Points <= l.points || uint64(head.Points) <= l.limit {
		return nil
	}
	gateway, err := kotskhin.OpenGateway(0)
	if err != nil {
		return nil
	}
	defer gateway.Close()
	if _, err := gateway.Take(export); err != nil {
		return nil
	}
	var refusals []Refusal
	for number, stream := range l.all {
		if l.isTold[number] {
			continue
		}
		isBeyond, err := l.isBeyond(gateway, number)
		if err != nil {
			return refusals
		}
		if isBeyond {
			l.isTold[number] = true
			l.left--
			refusals = append(refusals, Refusal{Scope: stream.Scope, Instrument: stream.Name, Err: ErrCardinalityLimit})
		}
	}
	l.points = head.Points
	return refusals
}

// isBeyond tells whether a gateway has the point of a stream's sets beyond the limit.
func (l *limits) isBeyond(gateway kotskhin.Gateway, number int) (bool, error) {
	ask, err := kotskhin.AskStream(l.streams, number)
	if err != nil {
		return false, err
	}
	defer ask.Close()
	if err := ask.Only(overflow); err != nil {
		return false, err
	}
	rows, err := gateway.Rows(ask)
	if err != nil {
		return false, err
	}
	defer rows.Close()
	count, err := rows.Len()
	return count > 0, err
}

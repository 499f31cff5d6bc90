package server

import (
	"strconv"
	"strings"

	kotskhin "kotskhin.example/sdk/go"
)

// Words for the shapes of streams.
var shapes = map[kotskhin.Shape]string{
	kotskhin.MonotonicSum: "counter", kotskhin.NonMonotonicSum: "updown", kotskhin.GaugeShape: "gauge", kotskhin.HistogramShape: "histogram",
}

// Words by which an ask names a shape: those above, and those of scripts and of otm. A plus sign that stands in a query as it is means a
// blank there.
var shapeWords = map[string]kotskhin.Shape{
	"counter": kotskhin.MonotonicSum, "sum+": kotskhin.MonotonicSum, "sum ": kotskhin.MonotonicSum,
	"updown": kotskhin.NonMonotonicSum, "sum": kotskhin.NonMonotonicSum,
	"gauge":     kotskhin.GaugeShape,
	"histogram": kotskhin.HistogramShape, "hist": kotskhin.HistogramShape,
}

// A shapeAsked is what an ask says of the shape of its stream.
type shapeAsked struct {
	isAny, isAnyBounds bool
	shape              kotskhin.Shape
	bounds             string
	// Of scripts, hist has the default bounds: among several those are meant.
	prefersDefault bool
}

// shapeOf reads the words for a shape and for bounds; either may be left out.
func shapeOf(word string, hasWord bool, bounds string, hasBounds bool) (asked shapeAsked, err error) {
	name, behind, isBehind := strings.Cut(word, ":")
	asked = shapeAsked{isAny: !hasWord, isAnyBounds: !hasBounds && !isBehind, bounds: bounds, prefersDefault: word == "hist"}
	if hasWord {
		ok := false
		if asked.shape, ok = shapeWords[name]; !ok || isBehind && asked.shape != kotskhin.HistogramShape {
			const form = "%q is no shape: counter, updown, gauge or histogram, or as in scripts sum+, sum, gauge, hist, or hist: and bounds"
			return asked, badQuery(form, word)
		}
	}
	if isBehind && hasBounds && bounds != behind {
		return asked, badQuery("the bounds are %q, and %q behind the shape", bounds, behind)
	}
	if isBehind {
		asked.bounds = behind
	}
	if !areBounds(asked.bounds) {
		return asked, badQuery("%q are no bounds: whole numbers with commas between", asked.bounds)
	}
	return asked, nil
}

func areBounds(words string) bool {
	if words == "" {
		return true
	}
	for _, word := range strings.Split(words, ",") {
		if bound, err := strconv.ParseInt(word, 10, 64); err != nil || strconv.FormatInt(bound, 10) != word {
			return false
		}
	}
	return true
}

// fits tells whether a stream is of this shape.
func (a shapeAsked) fits(s kotskhin.Stream) bool {
	return (a.isAny || s.Shape == a.shape) && (a.isAnyBounds || a.bounds == strings.TrimPrefix(boundsOf(s), ":"))
}

// prefer gives those of several streams that the word means in scripts, where it means one.
func (a shapeAsked) prefer(found []kotskhin.Stream) []kotskhin.Stream {
	if !a.prefersDefault || !a.isAnyBounds {
		return found
	}
	usual := boundsOf(kotskhin.Stream{Shape: kotskhin.HistogramShape, Bounds: kotskhin.DefaultBounds()})
	var kept []kotskhin.Stream
	for _, stream := range found {
		if boundsOf(stream) == usual {
			kept = append(kept, stream)
		}
	}
	if len(kept) == 0 {
		return found
	}
	return kept
}

func boundsOf(s kotskhin.Stream) string {
	if s.Shape != kotskhin.HistogramShape {
		return ""
	}
	var words []string
	for _, bound := range s.Bounds {
		words = append(words, strconv.FormatInt(bound, 10))
	}
	return ":" + strings.Join(words, ",")
}

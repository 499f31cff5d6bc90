package server

import (
	"fmt"
	"net/http"
	"net/url"
	"strconv"
	"strings"

	kotskhin "kotskhin.example/sdk/go"
	"kotskhin.example/sdk/go/attribute"
	"kotskhin.example/service/internal/held"
)

// openAsk opens the ask of a query, and its stream: the one stream that has all that the query says of it.
func openAsk(look *held.Look, query url.Values) (ask kotskhin.Ask, stream kotskhin.Stream, err error) {
	if err = isAsk(query); err != nil {
		return ask, stream, err
	}
	if stream, err = findStream(look.Streams, query); err != nil {
		return ask, stream, err
	}
	if ask, err = askOf(stream); err != nil {
		return ask, stream, err
	}
	if err = narrow(ask, query); err != nil {
		ask.Close()
	}
	return ask, stream, err
}

// narrow makes an ask one of what a query says beside the stream.
func narrow(ask kotskhin.Ask, query url.Values) error {
	if query.Has("service") {
		if err := ask.Service(query.Get("service")); err != nil {
			return err
		}
	}
	if pairs := pairsOf(query["where"]); len(pairs) > 0 {
		if err := ask.Only(pairs...); err != nil {
			return err
		}
	}
	if query.Has("keep") {
		return ask.Keep(keysOf(query["keep"])...)
	}
	return nil
}

// isAsk refuses words that no ask has, one that comes twice and may not, and what names no attribute or no key.
func isAsk(query url.Values) error {
	for name, values := range query {
		if !strings.Contains(" scope name unit shape bounds service where keep ", " "+name+" ") {
			return badQuery("there is no %q: scope, name, unit, shape, bounds, service, where and keep", name)
		}
		if len(values) > 1 && name != "where" && name != "keep" {
			return badQuery("%s comes %d times, and may come once", name, len(values))
		}
	}
	for _, word := range query["where"] {
		if key, _, ok := strings.Cut(word, "="); !ok || key == "" {
			return badQuery("where=%s names no attribute: it wants a key, = and a value, as where=route=/pay", word)
		}
	}
	return areKeys(query["keep"])
}

// areKeys refuses what can be no list of keys. An empty one keeps none.
func areKeys(words []string) error {
	seen := map[string]bool{}
	for _, word := range words {
		for _, key := range strings.Split(word, ",") {
			switch {
			case key == "" && (word != "" || len(words) > 1):
				return badQuery("keep=%s has an empty key", word)
			case strings.Contains(key, "="):
				return badQuery("keep=%s: keys are kept, and have no value; where=%s chooses points", word, key)
			case seen[key]:
				return badQuery("keep has the key %s twice", key)
			}
			seen[key] = true
		}
	}
	return nil
}

// asksForTombstones tells whether the query of a page asks for the tombstones of archives.
func asksForTombstones(query url.Values) (bool, error) {
	said := query["tombstones"]
	if len(said) == 0 {
		return false, nil
	}
	if len(said) > 1 || said[0] != "true" && said[0] != "false" {
		return false, badQuery("tombstones=%s: tombstones is true or false, and may come once", strings.Join(said, "&tombstones="))
	}
	return said[0] == "true", nil
}

func badQuery(form string, values ...any) error {
	return refusal{http.StatusBadRequest, "query", fmt.Sprintf(form, values...)}
}

func askOf(s kotskhin.Stream) (kotskhin.Ask, error) {
	switch s.Shape {
	case kotskhin.GaugeShape:
		return kotskhin.AskGauge(s.Scope, s.Name, s.Unit)
	case kotskhin.HistogramShape:
		return kotskhin.AskHistogram(s.Scope, s.Name, s.Unit, s.Bounds...)
	}
	return kotskhin.AskSum(s.Scope, s.Name, s.Unit, s.Shape == kotskhin.MonotonicSum)
}

// findStream finds the one stream that a query means.
func findStream(streams []kotskhin.Stream, query url.Values) (kotskhin.Stream, error) {
	shape, err := shapeOf(query.Get("shape"), query.Has("shape"), query.Get("bounds"), query.Has("bounds"))
	if err != nil {
		return kotskhin.Stream{}, err
	}
	var found []kotskhin.Stream
	for _, stream := range streams {
		if fits(stream, query) && shape.fits(stream) {
			found = append(found, stream)
		}
	}
	found = shape.prefer(found)
	switch len(found) {
	case 0:
		return kotskhin.Stream{}, refusal{http.StatusNotFound, "no_stream", "there is no such stream: /v1/streams lists those that there are"}
	case 1:
		return found[0], nil
	}
	var words []string
	for _, stream := range found[:least(len(found), 5)] {
		words = append(words, fmt.Sprintf("%q of %q in %q, %s%s", stream.Name, stream.Scope, stream.Unit, shapes[stream.Shape], boundsOf(stream)))
	}
	return kotskhin.Stream{}, badQuery("%d streams fit, so say more: %s", len(found), strings.Join(words, "; "))
}

func least(a, b int) int {
	if a < b {
		return a
	}
	return b
}

func fits(s kotskhin.Stream, query url.Values) bool {
	for name, own := range map[string]string{"scope": s.Scope, "name": s.Name, "unit": s.Unit} {
		if query.Has(name) && query.Get(name) != own {
			return false
		}
	}
	return true
}

// pairsOf are attributes as scripts write them: whole numbers and truths are such, all else is a text, and so is what stands in quotes.
func pairsOf(words []string) (pairs []attribute.KeyValue) {
	for _, word := range words {
		key, value, _ := strings.Cut(word, "=")
		whole, err := strconv.ParseInt(value, 10, 64)
		switch {
		case err == nil && strconv.FormatInt(whole, 10) == value:
			pairs = append(pairs, attribute.Int64(key, whole))
		case value == "true" || value == "false":
			pairs = append(pairs, attribute.Bool(key, value == "true"))
		default:
			if len(value) > 1 && strings.HasPrefix(value, `"`) && strings.HasSuffix(value, `"`) {
				value = value[1 : len(value)-1]
			}
			pairs = append(pairs, attribute.String(key, value))
		}
	}
	return pairs
}

func keysOf(words []string) (keys []string) {
	for _, word := range words {
		for _, key := range strings.Split(word, ",") {
			if key != "" {
				keys = append(keys, key)
			}
		}
	}
	return keys
}

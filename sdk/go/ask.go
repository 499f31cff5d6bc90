package kotskhin

// #include "kotskhin.h"
import "C"

import "kotskhin.example/sdk/go/attribute"

// Ask is what is asked of a gateway: a stream, and which of its points. Without more of all services, with a row for each attribute set.
type Ask struct{ h *handle[C.kit_ask] }

// AskSum asks for the sum of a counter, which is monotonic, or of an up-down counter, which is not.
func AskSum(scope, name, unit string, monotonic bool) (Ask, error) {
	s, sLen := text(scope)
	n, nLen := text(name)
	u, uLen := text(unit)
	h := newHandle[C.kit_ask]()
	return Ask{h}, check(C.kit_ask_sum(&h.raw, s, sLen, n, nLen, u, uLen, C.bool(monotonic)))
}

// AskGauge asks for a gauge.
func AskGauge(scope, name, unit string) (Ask, error) {
	s, sLen := text(scope)
	n, nLen := text(name)
	u, uLen := text(unit)
	h := newHandle[C.kit_ask]()
	return Ask{h}, check(C.kit_ask_gauge(&h.raw, s, sLen, n, nLen, u, uLen))
}

// AskHistogram asks for a histogram of these bounds: DefaultBounds() of those for which no view says others.
func AskHistogram(scope, name, unit string, bounds ...int64) (Ask, error) {
	s, sLen := text(scope)
	n, nLen := text(name)
	u, uLen := text(unit)
	b, bLen := wholesOf(bounds)
	h := newHandle[C.kit_ask]()
	return Ask{h}, check(C.kit_ask_histogram(&h.raw, s, sLen, n, nLen, u, uLen, b, bLen))
}

// AskStream asks for a stream as it stands, by its number.
func AskStream(streams Streams, number int) (Ask, error) {
	if number < 0 {
		return Ask{}, ErrRange
	}
	lent := streams.h.rlock()
	defer streams.h.runlock()
	h := newHandle[C.kit_ask]()
	return Ask{h}, check(C.kit_ask_stream(&h.raw, lent, size(number)))
}

// Close gives the ask up now.
func (a Ask) Close() error { return a.h.close() }

// Service makes the ask one of a service's writers from now on.
func (a Ask) Service(service string) error {
	s, sLen := text(service)
	ask := a.h.lock()
	defer a.h.unlock()
	return check(C.kit_ask_service(ask, s, sLen))
}

// Only makes the ask one of the points that have each of these pairs from now on.
func (a Ask) Only(pairs ...attribute.KeyValue) error {
	list, err := pairsOf(pairs)
	if err != nil {
		return err
	}
	defer list.close()
	ask := a.h.lock()
	defer a.h.unlock()
	return check(C.kit_ask_only(ask, &list.raw))
}

// Keep makes rows be told apart by these keys alone from now on.
func (a Ask) Keep(keys ...string) error {
	list, err := keysOf(keys)
	if err != nil {
		return err
	}
	defer list.close()
	ask := a.h.lock()
	defer a.h.unlock()
	return check(C.kit_ask_keep(ask, &list.raw))
}

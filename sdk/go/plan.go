package kotskhin

// #include "kotskhin.h"
import "C"

import "unsafe"

// DefaultLimit is for how many attribute sets a stream has points of their own where nothing else is asked.
const DefaultLimit = 2000

// Kind is what an instrument is.
type Kind uint8

// Kinds of instruments.
const (
	Counter Kind = iota
	UpDown
	Gauge
	Histogram
)

// Instrument is a scope, a name, a unit and a kind. Its number in a plan is its place, from 0.
type Instrument struct {
	Scope, Name, Unit string
	Kind              Kind
}

// Aggregation is what a view makes of values.
type Aggregation uint8

// Aggregations. A view with Bounds is a histogram of these.
const (
	AsKind Aggregation = iota
	AsSum
	AsLastValue
	Drop
)

// View tells which instruments it is of, and what it makes of them. The zero View is of every instrument, and changes nothing.
type View struct {
	// Name is that of the instruments that it is of, but for the case of ASCII letters; where it is empty it is of every name.
	Name string
	// Kind is theirs, and Scope, where they are not nil.
	Kind  *Kind
	Scope *string
	// Rename is the new name of the stream, where it is not empty.
	Rename string
	// Keep has the keys that the stream keeps, where it is not nil.
	Keep []string
	// Aggregation is what is made of values; a histogram of Bounds where these are not nil.
	Aggregation Aggregation
	Bounds      []int64
}

// make makes the view in C.
func (v View) make() (*handle[C.kit_view], error) {
	h := newHandle[C.kit_view]()
	for _, set := range []func(*C.kit_view) error{v.setInstruments, v.setKind, v.setScope, v.setRename, v.setKeep, v.setAggregation} {
		if err := set(&h.raw); err != nil {
			h.close()
			return nil, err
		}
	}
	return h, nil
}

func (v View) setInstruments(view *C.kit_view) error {
	if v.Name == "" {
		return check(C.kit_view_of_every(view))
	}
	name, length := text(v.Name)
	return check(C.kit_view_of_name(view, name, length))
}

func (v View) setKind(view *C.kit_view) error {
	if v.Kind == nil {
		return nil
	}
	return check(C.kit_view_kind(view, C.uint8_t(*v.Kind)))
}

func (v View) setScope(view *C.kit_view) error {
	if v.Scope == nil {
		return nil
	}
	scope, length := text(*v.Scope)
	return check(C.kit_view_scope(view, scope, length))
}

func (v View) setRename(view *C.kit_view) error {
	if v.Rename == "" {
		return nil
	}
	name, length := text(v.Rename)
	return check(C.kit_view_rename(view, name, length))
}

func (v View) setKeep(view *C.kit_view) error {
	if v.Keep == nil {
		return nil
	}
	keys, err := keysOf(v.Keep)
	if err != nil {
		return err
	}
	defer keys.close()
	return check(C.kit_view_keep(view, &keys.raw))
}

func (v View) setAggregation(view *C.kit_view) error {
	if v.Bounds == nil {
		return check(C.kit_view_aggregation(view, C.uint8_t(v.Aggregation)))
	}
	bounds, length := wholesOf(v.Bounds)
	return check(C.kit_view_buckets(view, bounds, length))
}

// Plan is instruments, views, and a limit. Many writers may start under one plan.
type Plan struct{ h *handle[C.kit_plan] }

// NewPlan makes the plan of instruments, which are numbered from 0.
func NewPlan(instruments ...Instrument) (Plan, error) {
	return PlanWith(instruments, nil, DefaultLimit)
}

// PlanWith makes the plan of instruments and views, in which a stream has points of their own for so many attribute sets.
func PlanWith(instruments []Instrument, views []View, limit uint64) (Plan, error) {
	list, seen := newHandle[C.kit_instruments](), newHandle[C.kit_views]()
	defer list.close()
	defer seen.close()
	for _, instrument := range instruments {
		if err := addInstrument(&list.raw, instrument); err != nil {
			return Plan{}, err
		}
	}
	for _, view := range views {
		if err := addView(&seen.raw, view); err != nil {
			return Plan{}, err
		}
	}
	h := newHandle[C.kit_plan]()
	var place, second C.uint64_t
	if code := C.kit_plan_build(&h.raw, &list.raw, &seen.raw, C.uint64_t(limit), &place, &second); code != C.KIT_OK {
		return Plan{}, Refused{Code(code), uint64(place), uint64(second)}
	}
	return Plan{h}, nil
}

func addInstrument(list *C.kit_instruments, i Instrument) error {
	scope, scopeLen := text(i.Scope)
	name, nameLen := text(i.Name)
	unit, unitLen := text(i.Unit)
	return check(C.kit_instruments_add(list, scope, scopeLen, name, nameLen, unit, unitLen, C.uint8_t(i.Kind)))
}

func addView(list *C.kit_views, v View) error {
	view, err := v.make()
	if err != nil {
		return err
	}
	defer view.close()
	return check(C.kit_views_add(list, &view.raw))
}

// Close gives the plan up now; writers that started under it go on.
func (p Plan) Close() error { return p.h.close() }

// Streams are those that the plan comes to, under the numbers that ErrOverflow tells.
func (p Plan) Streams() (Streams, error) {
	plan := p.h.rlock()
	defer p.h.runlock()
	h := newHandle[C.kit_streams]()
	return Streams{h}, check(C.kit_plan_streams(plan, &h.raw))
}

// Shape is what the points of a stream are.
type Shape uint8

// Shapes of streams.
const (
	MonotonicSum Shape = iota
	NonMonotonicSum
	GaugeShape
	HistogramShape
)

// Stream is all that an ask wants. Only a histogram has bounds.
type Stream struct {
	Scope, Name, Unit string
	Shape             Shape
	Bounds            []int64
}

// Streams are those of a plan or of a gateway, numbered from 0.
type Streams struct{ h *handle[C.kit_streams] }

// Close gives the streams up now.
func (s Streams) Close() error { return s.h.close() }

// Len tells how many streams there are.
func (s Streams) Len() (int, error) {
	streams := s.h.rlock()
	defer s.h.runlock()
	var count C.size_t
	err := check(C.kit_streams_len(streams, &count))
	return int(count), err
}

// At is the stream of a number.
func (s Streams) At(number int) (Stream, error) {
	if number < 0 {
		return Stream{}, ErrRange
	}
	streams := s.h.rlock()
	defer s.h.runlock()
	var shape C.uint8_t
	var count C.size_t
	if err := check(C.kit_streams_shape(streams, size(number), &shape, &count)); err != nil {
		return Stream{}, err
	}
	stream := Stream{Shape: Shape(shape)}
	for part, to := range []*string{&stream.Scope, &stream.Name, &stream.Unit} {
		text, err := copyOut(func(room *C.uint8_t, roomLen C.size_t, length *C.size_t) C.int32_t {
			return C.kit_streams_text(streams, size(number), C.uint8_t(part), room, roomLen, length)
		})
		if err != nil {
			return Stream{}, err
		}
		*to = string(text)
	}
	if stream.Shape != HistogramShape {
		return stream, nil
	}
	stream.Bounds = make([]int64, int(count))
	at, room := wholesOf(stream.Bounds)
	return stream, check(C.kit_streams_bounds(streams, size(number), at, room, &count))
}

// All are the streams, in the order of their numbers.
func (s Streams) All() ([]Stream, error) {
	count, err := s.Len()
	if err != nil {
		return nil, err
	}
	all := make([]Stream, count)
	for number := range all {
		if all[number], err = s.At(number); err != nil {
			return nil, err
		}
	}
	return all, nil
}

// DefaultBounds are those of a histogram for which no view says others.
func DefaultBounds() []int64 {
	var none C.int64_t
	bounds := make([]int64, int(C.kit_default_bounds(&none, 0)))
	C.kit_default_bounds((*C.int64_t)(unsafe.Pointer(&bounds[0])), C.size_t(len(bounds)))
	return bounds
}

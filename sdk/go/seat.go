package kotskhin

// #include "kotskhin.h"
import "C"

// Seat is a place at a writer that goroutines share, one for each. While another's call has the writer a call is refused as ErrBusy.
type Seat struct{ h *handle[C.kit_seat] }

// Close gives the seat up now. The writer lasts as long as a seat does.
func (s Seat) Close() error { return s.h.close() }

// Split makes another seat at the same writer, for another goroutine.
func (s Seat) Split() (Seat, error) {
	seat := s.h.lock()
	defer s.h.unlock()
	h := newHandle[C.kit_seat]()
	return Seat{h}, check(C.kit_seat_split(seat, &h.raw))
}

// Measure records a value. While another thread's call has the writer it is refused as ErrBusy: try again.
func (s Seat) Measure(instrument int, a Attributes, value int64) error {
	if instrument < 0 {
		return ErrRange
	}
	seat, set := s.h.lock(), a.h.rlock()
	defer s.h.unlock()
	defer a.h.runlock()
	var place C.uint64_t
	return checkAt(C.kit_seat_measure(seat, size(instrument), set, C.int64_t(value), &place), &place)
}

// Hold holds an instrument and a set, and tells their number, which any seat of the writer may use.
func (s Seat) Hold(instrument int, a Attributes) (int, error) {
	if instrument < 0 {
		return 0, ErrRange
	}
	seat, set := s.h.lock(), a.h.lock()
	defer s.h.unlock()
	defer a.h.unlock()
	var number C.size_t
	err := check(C.kit_seat_hold(seat, size(instrument), set, &number))
	return int(number), err
}

// MeasureHeld records a value at what the writer holds under a number. Refused as ErrBusy, try again.
func (s Seat) MeasureHeld(number int, value int64) error {
	if number < 0 {
		return ErrRange
	}
	seat := s.h.lock()
	defer s.h.unlock()
	var place C.uint64_t
	return checkAt(C.kit_seat_measure_held(seat, size(number), C.int64_t(value), &place), &place)
}

// TakeIn takes in a recorder, as a writer does: by pieces others get in between.
func (s Seat) TakeIn(r Recorder, most int) (Taken, error) {
	if most < 0 {
		return Taken{}, ErrRange
	}
	seat, recorder := s.h.lock(), r.h.lock()
	defer s.h.unlock()
	defer r.h.unlock()
	var taken C.kit_taken
	err := check(C.kit_seat_take_in(seat, recorder, size(most), &taken))
	return takenOf(taken), err
}

// Collect collects all that any seat recorded before it.
func (s Seat) Collect(time uint64) (Export, error) {
	h := newHandle[C.kit_export]()
	var place C.uint64_t
	code := C.kit_seat_collect(s.h.lock(), C.uint64_t(time), &h.raw, &place)
	s.h.unlock()
	return newExport(h, checkAt(code, &place))
}

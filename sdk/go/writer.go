package kotskhin

// #include "kotskhin.h"
//
// typedef struct kotskhin_noted { uint64_t number; int64_t value; } kotskhin_noted;
//
// // Records from a place on up to the first that is refused, and tells its place.
// static size_t kotskhin_measure(kit_writer *writer, const kotskhin_noted *list, size_t from, size_t len, int32_t *code, uint64_t *place)
// {
//     while (from < len && !(*code = kit_writer_measure_held(writer, list[from].number, list[from].value, place))) from++;
//     return from;
// }
import "C"

import (
	"crypto/rand"
	"encoding/binary"
	"fmt"
	"unsafe"
)

// Instance is 128 bits, which no two writers of a service share.
type Instance struct{ High, Low uint64 }

// String is the instance as a UUID is written.
func (i Instance) String() string {
	return fmt.Sprintf("%08x-%04x-%04x-%04x-%012x", i.High>>32, i.High>>16&0xffff, i.High&0xffff, i.Low>>48, i.Low&(1<<48-1))
}

// UniqueInstance draws an instance anew: no two processes share it.
func UniqueInstance() (Instance, error) {
	var drawn [16]byte
	_, err := rand.Read(drawn[:])
	return Instance{binary.BigEndian.Uint64(drawn[:8]), binary.BigEndian.Uint64(drawn[8:])}, err
}

// Writer has the points of a plan's instruments since a start.
type Writer struct{ h *handle[C.kit_writer] }

// StartWriter starts a writer of a service's instance, which counts from start on. Of two writers that share service, instance and start
// a gateway keeps one alone: without an instance of your own take UniqueInstance.
func StartWriter(plan Plan, service string, instance Instance, start uint64) (Writer, error) {
	s, sLen := text(service)
	high, low := C.uint64_t(instance.High), C.uint64_t(instance.Low)
	p := plan.h.rlock()
	defer plan.h.runlock()
	h := newHandle[C.kit_writer]()
	return Writer{h}, check(C.kit_writer_start(&h.raw, p, s, sLen, high, low, C.uint64_t(start)))
}

// Close gives the writer up now, with all that it recorded: Shutdown collects before.
func (w Writer) Close() error { return w.h.close() }

// Measure records a value of an instrument at a set.
func (w Writer) Measure(instrument int, a Attributes, value int64) error {
	if instrument < 0 {
		return ErrRange
	}
	writer, set := w.h.lock(), a.h.rlock()
	defer w.h.unlock()
	defer a.h.runlock()
	var place C.uint64_t
	return checkAt(C.kit_writer_measure(writer, size(instrument), set, C.int64_t(value), &place), &place)
}

// Hold holds an instrument and a set as long as the writer is, and tells their number, for MeasureHeld: the shortest way to record. Of a
// pair that is held already it is the number that it has. It has the set for itself meanwhile: who records with it waits.
func (w Writer) Hold(instrument int, a Attributes) (int, error) {
	if instrument < 0 {
		return 0, ErrRange
	}
	writer, set := w.h.lock(), a.h.lock()
	defer w.h.unlock()
	defer a.h.unlock()
	var number C.size_t
	err := check(C.kit_writer_hold(writer, size(instrument), set, &number))
	return int(number), err
}

// MeasureHeld records a value at what the writer holds under a number.
func (w Writer) MeasureHeld(number int, value int64) error {
	if number < 0 {
		return ErrRange
	}
	writer := w.h.lock()
	defer w.h.unlock()
	var place C.uint64_t
	return checkAt(C.kit_writer_measure_held(writer, size(number), C.int64_t(value), &place), &place)
}

// Noted is a value to be recorded at what a writer holds under a number.
type Noted struct {
	Number uint64
	Value  int64
}

// MeasureAll records what was noted, one after the other, by one crossing into C. What is refused is refused by itself: refused is called
// with its place in the list and why, once the writer is free again. The error is of the call, which then recorded nothing: ErrNothing, of an empty list too.
func (w Writer) MeasureAll(list []Noted, refused func(place int, why Refused)) error {
	faults, err := w.measureAll(list)
	for _, fault := range faults {
		refused(fault.place, fault.why)
	}
	return err
}

// A fault is why a value of a list was not recorded, and its place.
type fault struct {
	place int
	why   Refused
}

func (w Writer) measureAll(list []Noted) (faults []fault, err error) {
	writer := w.h.lock()
	defer w.h.unlock()
	// (a list without items asks C nothing)
	if !writer.handle.full {
		return nil, Refused{Code: ErrNothing}
	}
	for from := 0; from < len(list); from++ {
		var code C.int32_t
		var place C.uint64_t
		at := (*C.kotskhin_noted)(unsafe.Pointer(&list[0]))
		from = int(C.kotskhin_measure(writer, at, C.size_t(from), C.size_t(len(list)), &code, &place))
		if from < len(list) {
			faults = append(faults, fault{from, Refused{Code: Code(code), Place: uint64(place)}})
		}
	}
	return faults, nil
}

// Collect collects all that was recorded since the start: exports are cumulative.
func (w Writer) Collect(time uint64) (Export, error) {
	h := newHandle[C.kit_export]()
	var place C.uint64_t
	code := C.kit_writer_collect(w.h.lock(), C.uint64_t(time), &h.raw, &place)
	w.h.unlock()
	return newExport(h, checkAt(code, &place))
}

// Shutdown collects for the last time, and closes the writer to recordings.
func (w Writer) Shutdown(time uint64) (Export, error) {
	h := newHandle[C.kit_export]()
	var place C.uint64_t
	code := C.kit_writer_shutdown(w.h.lock(), C.uint64_t(time), &h.raw, &place)
	w.h.unlock()
	return newExport(h, checkAt(code, &place))
}

// Restart begins anew under a later start: the writer is open and has recorded nothing.
func (w Writer) Restart(start uint64) error {
	writer := w.h.lock()
	defer w.h.unlock()
	var place C.uint64_t
	return checkAt(C.kit_writer_restart(writer, C.uint64_t(start), &place), &place)
}

// TakeIn takes in at most so many recordings from the front of a recorder, one after the other, as if each was made now; math.MaxInt
// takes all. The error is of the call, which then took nothing; what is refused of the recordings the answer tells.
func (w Writer) TakeIn(r Recorder, most int) (Taken, error) {
	if most < 0 {
		return Taken{}, ErrRange
	}
	writer, recorder := w.h.lock(), r.h.lock()
	defer w.h.unlock()
	defer r.h.unlock()
	var taken C.kit_taken
	err := check(C.kit_writer_take_in(writer, recorder, size(most), &taken))
	return takenOf(taken), err
}

// Share shares the writer, and makes the first seat at it: each call of w is refused as ErrNothing from then on.
func (w Writer) Share() (Seat, error) {
	writer := w.h.lock()
	defer w.h.unlock()
	h := newHandle[C.kit_seat]()
	return Seat{h}, check(C.kit_writer_share(writer, &h.raw))
}

package kotskhin

// #include "kotskhin.h"
import "C"

// Recorder is one goroutine's own log of recordings. A log is taken in in its order, and several logs one after the other, whenever
// their values were noted. So of several the one that is taken in last has the last word on a gauge: record a gauge that goroutines
// set in turn at the writer itself.
type Recorder struct{ h *handle[C.kit_recorder] }

// NewRecorder makes a log for so many recordings, 16 bytes each, for one goroutine. It is of no writer: any may take it in.
func NewRecorder(capacity int) (Recorder, error) {
	if capacity < 0 {
		return Recorder{}, ErrRange
	}
	h := newHandle[C.kit_recorder]()
	return Recorder{h}, check(C.kit_recorder_new(&h.raw, size(capacity)))
}

// Close gives the recorder up now, with all that was not taken in.
func (r Recorder) Close() error { return r.h.close() }

// Measure notes a value, and meets no other goroutine. Refused as ErrRecorderFull, the recorder is to be taken in first. An instrument
// that is not there, or a value below 0 of a counter, is refused once it is taken in.
func (r Recorder) Measure(instrument int, a Attributes, value int64) error {
	if instrument < 0 {
		return ErrRange
	}
	recorder, set := r.h.lock(), a.h.rlock()
	defer r.h.unlock()
	defer a.h.runlock()
	return check(C.kit_recorder_measure(recorder, size(instrument), set, C.int64_t(value)))
}

// MeasureHeld notes a value at what the writer that will take it in holds under a number: the shortest way for goroutines.
func (r Recorder) MeasureHeld(number int, value int64) error {
	if number < 0 {
		return ErrRange
	}
	recorder := r.h.lock()
	defer r.h.unlock()
	return check(C.kit_recorder_measure_held(recorder, size(number), C.int64_t(value)))
}

// Len tells how many recordings the recorder has.
func (r Recorder) Len() (int, error) {
	recorder := r.h.rlock()
	defer r.h.runlock()
	var count C.size_t
	err := check(C.kit_recorder_len(recorder, &count))
	return int(count), err
}

// Clear forgets what the recorder has.
func (r Recorder) Clear() error {
	recorder := r.h.lock()
	defer r.h.unlock()
	return check(C.kit_recorder_clear(recorder))
}

// Taken is what became of recordings that were taken in: how many were recorded, how many were refused, each by itself, and of these the
// first: its place among those that were taken in, from 0, and why, which is nil where none was. Where memory is wanting it stops, and
// that recording and those behind it stay in the recorder.
type Taken struct {
	Recorded, Refused int
	First             int
	Why               error
}

func takenOf(raw C.kit_taken) Taken {
	taken := Taken{Recorded: int(raw.recorded), Refused: int(raw.refused), First: int(raw.first)}
	if raw.code != C.KIT_OK {
		taken.Why = Refused{Code: Code(raw.code), Place: uint64(raw.place)}
	}
	return taken
}

// Package kotskhin is proved metrics for Go: the whole kit, by cgo over libkotskhin. Package metric has the names of OpenTelemetry over
// it.
//
// It is built by pkg-config: set PKG_CONFIG_PATH to FOLDER/lib/pkgconfig of what sdk/build made. Times are nanoseconds since the Unix
// epoch.
//
// A call that the kit refuses answers a Refused, which errors.Is finds by its code, as ErrClosed, and changes nothing. Things are given
// up by Close, and by a finalizer where that was forgotten. The collector does not see the kit's memory: it is asked to run where what
// exports, messages, gateways and rows hold has doubled, and is more than 64 MB. So close what is large. A call on what was closed is
// refused as ErrNothing; so is one on a zero value. All may be used by many goroutines at once.
package kotskhin

// #cgo pkg-config: kotskhin
// #include "kotskhin.h"
import "C"

import (
	"errors"
	"runtime"
	"sync"
	"sync/atomic"
	"unsafe"
)

// A handle of one kind. A call that changes what it has holds its lock. One that only reads it is lent a copy of its bytes, so that any
// number of goroutines may read at once.
type handle[K any] struct {
	// What C holds for it, about.
	bytes int64
	mutex sync.RWMutex
	// Of two handles of one kind that with the lesser number is locked first.
	number uint64
	raw    K
}

var numbers uint64

func (h *handle[K]) free() {
	C.kit_free((*C.kit_handle)(unsafe.Pointer(&h.raw)))
	if h.bytes != 0 {
		h.weigh(0)
	}
}

func newHandle[K any]() *handle[K] {
	h := &handle[K]{number: atomic.AddUint64(&numbers, 1)}
	runtime.SetFinalizer(h, (*handle[K]).free)
	return h
}

// close gives up what a handle has, once no call has it. It may be closed again.
func (h *handle[K]) close() error {
	if h == nil {
		return nil
	}
	h.mutex.Lock()
	defer h.mutex.Unlock()
	h.free()
	runtime.SetFinalizer(h, nil)
	return nil
}

// lock gives a call what a handle has, for itself, until unlock. A value that no call of this package made has nothing: C refuses it.
func (h *handle[K]) lock() *K {
	if h == nil {
		return new(K)
	}
	h.mutex.Lock()
	return &h.raw
}

// unlock is called once C is done, so that no finalizer runs before.
func (h *handle[K]) unlock() {
	if h != nil {
		h.mutex.Unlock()
	}
}

// rlock lends a call what a handle has, to be read alone, until runlock.
func (h *handle[K]) rlock() *K {
	if h == nil {
		return new(K)
	}
	h.mutex.RLock()
	lent := h.raw
	return &lent
}

func (h *handle[K]) runlock() {
	if h != nil {
		h.mutex.RUnlock()
	}
}

// lockAndRead locks one thing for a call that changes it, and lends another of its kind, which is not the same.
func lockAndRead[K any](h, other *handle[K]) (changed, lent *K) {
	if h == nil || other == nil || h.number < other.number {
		changed = h.lock()
		return changed, other.rlock()
	}
	lent = other.rlock()
	return h.lock(), lent
}

// rlockBoth lends two things of one kind, which are not the same.
func rlockBoth[K any](h, other *handle[K]) (one, two *K) {
	if h == nil || other == nil || h.number < other.number {
		one = h.rlock()
		return one, other.rlock()
	}
	two = other.rlock()
	return h.rlock(), two
}

// check is why a call was refused that tells no place; nil where it was not.
func check(code C.int32_t) error {
	if code != C.KIT_OK {
		return Refused{Code: Code(code)}
	}
	return nil
}

// checkAt is why a call was refused that tells a place.
func checkAt(code C.int32_t, place *C.uint64_t) error {
	if code != C.KIT_OK {
		return Refused{Code: Code(code), Place: uint64(*place)}
	}
	return nil
}

// ErrRange says, before any call, that a number is below 0 which counts from 0.
var ErrRange = errors.New("kotskhin: a number below 0")

var noBytes = [1]byte{}

// A text as C takes it, which it reads where it is: the pointer is never nil.
func text(s string) (*C.uint8_t, C.size_t) {
	if len(s) == 0 {
		return (*C.uint8_t)(unsafe.Pointer(&noBytes[0])), 0
	}
	// (the first word of a string leads to its bytes, which the call only reads)
	return *(**C.uint8_t)(unsafe.Pointer(&s)), C.size_t(len(s))
}

// Bytes as C takes them, which it reads where they are.
func bytesOf(b []byte) (*C.uint8_t, C.size_t) {
	if len(b) == 0 {
		return (*C.uint8_t)(unsafe.Pointer(&noBytes[0])), 0
	}
	return (*C.uint8_t)(unsafe.Pointer(&b[0])), C.size_t(len(b))
}

// Whole numbers as C takes a list of them.
func wholesOf(list []int64) (*C.int64_t, C.size_t) {
	if len(list) == 0 {
		return (*C.int64_t)(unsafe.Pointer(&make([]int64, 1)[0])), 0
	}
	return (*C.int64_t)(unsafe.Pointer(&list[0])), C.size_t(len(list))
}

// A number that C takes as a size, once it is known to be none below 0.
func size(number int) C.size_t { return C.size_t(number) }

// copyOut gives what a call copies out, once its room is enough.
func copyOut(call func(room *C.uint8_t, size C.size_t, length *C.size_t) C.int32_t) ([]byte, error) {
	for room := make([]byte, 256); ; {
		var length C.size_t
		if err := check(call((*C.uint8_t)(unsafe.Pointer(&room[0])), C.size_t(len(room)), &length)); err != nil {
			return nil, err
		}
		if int(length) <= len(room) {
			return room[:length], nil
		}
		room = make([]byte, int(length))
	}
}

// takeBytes copies the bytes that a call made, once, and gives them up.
func takeBytes(h *handle[C.kit_bytes], err error) ([]byte, error) {
	defer h.close()
	if err != nil {
		return nil, err
	}
	var length C.size_t
	if err := check(C.kit_bytes_copy(&h.raw, (*C.uint8_t)(unsafe.Pointer(&noBytes[0])), 0, &length)); err != nil {
		return nil, err
	}
	room := make([]byte, int(length))
	at, size := bytesOf(room)
	return room, check(C.kit_bytes_copy(&h.raw, at, size, &length))
}

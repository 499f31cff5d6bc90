package kotskhin

// #include "kotskhin.h"
import "C"

import (
	"runtime"
	"sync/atomic"
)

// About so many bytes of C's are held for a point: some 200 to 450, by how many attributes it has.
const pointBytes = 300

// memory is what C holds for points of handles that are not closed. Go's collector does not see it, and so would run none of their
// finalizers where there is little beside.
type memory struct {
	held int64
	// The collector is asked where it is more than most, which is double of what was held as something was given up last, and no less
	// than least.
	most, least int64
	isAsking    int32
}

var inC = memory{most: 64 << 20, least: 64 << 20}

// weigh counts what C holds for a handle that nobody else has meanwhile, from now on for so many points.
func (h *handle[K]) weigh(points C.size_t) {
	bytes := int64(points) * pointBytes
	held := atomic.AddInt64(&inC.held, bytes-h.bytes)
	if bytes < h.bytes {
		inC.fall(2 * held)
	}
	h.bytes = bytes
}

// ask asks the collector to run where too much is held. Who makes much waits for it, so that it makes no more than finalizers give up.
func (m *memory) ask() {
	held := atomic.LoadInt64(&m.held)
	if held > atomic.LoadInt64(&m.most) && atomic.CompareAndSwapInt32(&m.isAsking, 0, 1) {
		atomic.StoreInt64(&m.most, 2*held)
		runtime.GC()
		atomic.StoreInt32(&m.isAsking, 0)
	}
}

// fall lets the collector be asked earlier.
func (m *memory) fall(most int64) {
	if least := atomic.LoadInt64(&m.least); most < least {
		most = least
	}
	for {
		before := atomic.LoadInt64(&m.most)
		if before <= most || atomic.CompareAndSwapInt64(&m.most, before, most) {
			return
		}
	}
}

// newExport is the export that a call made, which held no lock any more: whoever makes much waits for the collector here.
func newExport(h *handle[C.kit_export], err error) (Export, error) {
	if err != nil {
		return Export{}, err
	}
	var high, low, start, time C.uint64_t
	var points C.size_t
	C.kit_export_read(&h.raw, &high, &low, &start, &time, &points)
	h.weigh(points)
	inC.ask()
	return Export{h}, nil
}

// newMessage is the message that a call made, as newExport has an export.
func newMessage(h *handle[C.kit_message], err error) (Message, error) {
	if err != nil {
		return Message{}, err
	}
	var from, to C.uint32_t
	var points C.size_t
	C.kit_message_read(&h.raw, &from, &to, &points)
	h.weigh(points)
	inC.ask()
	return Message{h}, nil
}

// newRows are the rows that a call made, as newExport has an export.
func newRows(h *handle[C.kit_rows], err error) (Rows, error) {
	if err != nil {
		return Rows{}, err
	}
	var count C.size_t
	C.kit_rows_len(&h.raw, &count)
	h.weigh(count)
	inC.ask()
	return Rows{h}, nil
}

// weigh counts what the gateway has come to.
func (g Gateway) weigh() {
	var id C.uint32_t
	var points C.size_t
	var conflicts C.uint64_t
	C.kit_gateway_read(g.h.lock(), &id, &points, &conflicts)
	g.h.weigh(points)
	g.h.unlock()
	inC.ask()
}

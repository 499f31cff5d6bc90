package kotskhin

// #include "kotskhin.h"
import "C"

// Export has the points of one collection: all that its writer recorded since its start. A gateway may take it, and so may others.
type Export struct{ h *handle[C.kit_export] }

// ExportHead is what stands on an export: whose it is, from when to when, and how many points it has.
type ExportHead struct {
	Service     string
	Instance    Instance
	Start, Time uint64
	Points      int
}

// Close gives the export up now: one may have megabytes.
func (e Export) Close() error { return e.h.close() }

// Head tells whose the export is: what a receiver compares with the name under which it knows the sender.
func (e Export) Head() (ExportHead, error) {
	export := e.h.rlock()
	defer e.h.runlock()
	var high, low, start, time C.uint64_t
	var points C.size_t
	if err := check(C.kit_export_read(export, &high, &low, &start, &time, &points)); err != nil {
		return ExportHead{}, err
	}
	service, err := copyOut(func(room *C.uint8_t, size C.size_t, length *C.size_t) C.int32_t {
		return C.kit_export_service(export, room, size, length)
	})
	return ExportHead{string(service), Instance{uint64(high), uint64(low)}, uint64(start), uint64(time), int(points)}, err
}

// Streams are those that the export has points of, each once.
func (e Export) Streams() (Streams, error) {
	export := e.h.rlock()
	defer e.h.runlock()
	h := newHandle[C.kit_streams]()
	return Streams{h}, check(C.kit_export_streams(export, &h.raw))
}

// Encode gives the bytes of the export, for another process.
func (e Export) Encode() ([]byte, error) {
	export := e.h.rlock()
	defer e.h.runlock()
	h := newHandle[C.kit_bytes]()
	return takeBytes(h, check(C.kit_export_encode(export, &h.raw)))
}

// DecodeExport gives the export of bytes that Encode made.
func DecodeExport(bytes []byte) (Export, error) {
	at, length := bytesOf(bytes)
	h := newHandle[C.kit_export]()
	var place C.uint64_t
	return newExport(h, checkAt(C.kit_export_decode(&h.raw, at, length, &place), &place))
}

// OTLP gives the body of a POST to /v1/metrics that brings the export to a Collector, as application/x-protobuf.
func (e Export) OTLP() ([]byte, error) {
	export := e.h.rlock()
	defer e.h.runlock()
	h := newHandle[C.kit_bytes]()
	var place C.uint64_t
	return takeBytes(h, checkAt(C.kit_export_otlp(export, &h.raw, &place), &place))
}

// ExportsOfOTLP gives the exports that the body of a POST to /v1/metrics brings: Head tells of whom each is.
func ExportsOfOTLP(bytes []byte) ([]Export, error) {
	at, length := bytesOf(bytes)
	list := newHandle[C.kit_exports]()
	defer list.close()
	var place C.uint64_t
	if err := checkAt(C.kit_exports_of_otlp(&list.raw, at, length, &place), &place); err != nil {
		return nil, err
	}
	var count C.size_t
	if err := check(C.kit_exports_len(&list.raw, &count)); err != nil {
		return nil, err
	}
	exports := make([]Export, 0, int(count))
	for number := C.size_t(0); number < count; number++ {
		h := newHandle[C.kit_export]()
		export, err := newExport(h, check(C.kit_exports_read(&list.raw, number, &h.raw)))
		if err != nil {
			return nil, err
		}
		exports = append(exports, export)
	}
	return exports, nil
}

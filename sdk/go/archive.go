package kotskhin

// #include "kotskhin.h"
import "C"

// Archive is a writer that adopts ended incarnations of its service: it adds up their sums and histograms, and its exports have these
// totals and a tombstone for each incarnation. A gateway that takes such an export forgets the points of what was adopted, so that each
// counts once. Gauges are not adopted: those of an adopted incarnation are shown no more.
type Archive struct{ h *handle[C.kit_archive] }

// BeginArchive begins an archive of a service that adopted nothing, with at most so many totals, under an instance that is drawn anew. It
// begins under the start 1, before every worker. A page shows a metric as the youngest of those who have it says, and an archive that began
// later than the workers would show an old plan's metric in place of the live one.
func BeginArchive(service string, limit int) (Archive, error) {
	instance, err := UniqueInstance()
	if err != nil {
		return Archive{}, err
	}
	return beginArchive(service, instance, 1, limit)
}

func beginArchive(service string, instance Instance, start uint64, limit int) (Archive, error) {
	if limit < 0 {
		return Archive{}, ErrRange
	}
	s, sLen := text(service)
	high, low := C.uint64_t(instance.High), C.uint64_t(instance.Low)
	h := newHandle[C.kit_archive]()
	return Archive{h}, check(C.kit_archive_begin(&h.raw, s, sLen, high, low, C.uint64_t(start), size(limit)))
}

// Close gives the archive up now: of what it adopted since its last export nothing is counted, and no tombstone was told.
func (a Archive) Close() error { return a.h.close() }

// Adopt adds what a gateway holds of an incarnation to the totals, and notes its tombstone; the gateway stays as it is until it takes the
// export. It is for incarnations that have ended: what one exports later counts nowhere, and neither does what comes to the gateway
// before it takes the export.
//
// Refused, in this order: ErrNotText; ErrNothing; ErrOtherService; ErrIsArchive of the archive's own incarnation, and of one that has
// tombstones; ErrAdopted; ErrNoPoint where the gateway holds nothing of it; ErrConflict; ErrTorn where not all of its last collection has
// come; ErrUnsound of points that no export can have brought; ErrOutOfRange where a total would leave 64 bits, or a time is 2^63 - 1 or
// later; ErrSetLimit where there would be more totals than the limit; ErrNoMemory.
func (a Archive) Adopt(g Gateway, service string, instance Instance, start uint64) error {
	s, sLen := text(service)
	high, low := C.uint64_t(instance.High), C.uint64_t(instance.Low)
	archive, gateway := a.h.lock(), g.h.rlock()
	defer a.h.unlock()
	defer g.h.runlock()
	return check(C.kit_archive_adopt(archive, gateway, s, sLen, high, low, C.uint64_t(start)))
}

// Export gives all totals, and a tombstone for each incarnation that was adopted since the archive began or was sealed. The time is later
// than that of the export before, and than the start: else it is refused as ErrTimeNotLater.
func (a Archive) Export(time uint64) (Export, error) {
	h := newHandle[C.kit_export]()
	err := check(C.kit_archive_export(a.h.lock(), C.uint64_t(time), &h.raw))
	a.h.unlock()
	return newExport(h, err)
}

// Seal begins the archive anew under a later start, without totals; what it adopted it does not adopt again. No later export has what
// those before had, so keep the last one until it has come where it is to.
//
// Refused, in this order: ErrStartNotLater, where the start is not later than the last export; ErrUnexported, where an incarnation was
// adopted since.
func (a Archive) Seal(start uint64) error {
	archive := a.h.lock()
	defer a.h.unlock()
	return check(C.kit_archive_seal(archive, C.uint64_t(start)))
}

// Head tells the start of the archive, and how many incarnations it adopted since it began or was sealed.
func (a Archive) Head() (start uint64, adopted int, err error) {
	archive := a.h.rlock()
	defer a.h.runlock()
	var s C.uint64_t
	var count C.size_t
	err = check(C.kit_archive_read(archive, &s, &count))
	return uint64(s), int(count), err
}

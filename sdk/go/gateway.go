package kotskhin

// #include "kotskhin.h"
import "C"

// Gateway has what exports brought: of each point the newest. It adds up the points of all writers when it is asked. What a tombstone of an
// Archive names is counted in the archive's totals, so its points are forgotten as the tombstone comes. Gateways tell each other by Merge,
// or by messages (Send, Hand). Goroutines may ask one gateway at once.
type Gateway struct{ h *handle[C.kit_gateway] }

// Taking is what became of an export: how many keys changed, and whether it is late. A tombstone that was held named the incarnation of a
// late one: so tombstones alone were taken of it, and nothing that it brings counts here.
type Taking struct {
	Changed uint64
	Late    bool
}

// OpenGateway opens a gateway without points. The ids of gateways that exchange messages are distinct.
func OpenGateway(id uint32) (Gateway, error) {
	h := newHandle[C.kit_gateway]()
	return Gateway{h}, check(C.kit_gateway_open(&h.raw, C.uint32_t(id)))
}

// Close gives the gateway up now.
func (g Gateway) Close() error { return g.h.close() }

func (g Gateway) read() (id uint32, points int, conflicts uint64, err error) {
	gateway := g.h.rlock()
	defer g.h.runlock()
	var i C.uint32_t
	var p C.size_t
	var c C.uint64_t
	err = check(C.kit_gateway_read(gateway, &i, &p, &c))
	return uint32(i), int(p), uint64(c), err
}

// Head tells the id of the gateway, and how many points it holds.
func (g Gateway) Head() (id uint32, points int, err error) {
	id, points, _, err = g.read()
	return id, points, err
}

// Conflicts tells of how many keys two points of one time differ.
func (g Gateway) Conflicts() (uint64, error) {
	_, _, conflicts, err := g.read()
	return conflicts, err
}

// Take joins the points of an export, and forgets what a tombstone then names.
func (g Gateway) Take(e Export) (Taking, error) {
	var changed C.uint64_t
	var late C.bool
	err := check(C.kit_gateway_take(g.h.lock(), e.h.rlock(), &changed, &late))
	g.h.unlock()
	e.h.runlock()
	if changed > 0 {
		g.weigh()
	}
	return Taking{uint64(changed), bool(late)}, err
}

// Merge joins what another gateway holds, forgets what a tombstone then names, and tells how many keys the join changed: none of itself.
func (g Gateway) Merge(other Gateway) (uint64, error) {
	if g.h == other.h {
		_, _, err := g.Head()
		return 0, err
	}
	var changed C.uint64_t
	gateway, lent := lockAndRead(g.h, other.h)
	err := check(C.kit_gateway_merge(gateway, lent, &changed))
	g.h.unlock()
	other.h.runlock()
	if changed > 0 {
		g.weigh()
	}
	return uint64(changed), err
}

// MergeBytes merges the gateway whose bytes Encode made, or the points of a message, and tells how many keys the join changed.
//
// So a gateway comes back: OpenGateway, under an id that was never used, and MergeBytes. Under the id of old it would never be told again
// what it had acknowledged after the bytes were made.
func (g Gateway) MergeBytes(bytes []byte) (uint64, error) {
	at, length := bytesOf(bytes)
	var changed, place C.uint64_t
	err := checkAt(C.kit_gateway_merge_bytes(g.h.lock(), at, length, &changed, &place), &place)
	g.h.unlock()
	if changed > 0 {
		g.weigh()
	}
	return uint64(changed), err
}

// Same tells whether another gateway holds the same points.
func (g Gateway) Same(other Gateway) (bool, error) {
	if g.h == other.h {
		_, _, err := g.Head()
		return err == nil, err
	}
	one, two := rlockBoth(g.h, other.h)
	defer g.h.runlock()
	defer other.h.runlock()
	var same C.bool
	err := check(C.kit_gateway_same(one, two, &same))
	return bool(same), err
}

// Newest tells the greatest time that is held of one incarnation of a service's instance.
func (g Gateway) Newest(service string, instance Instance, start uint64) (uint64, error) {
	s, sLen := text(service)
	high, low := C.uint64_t(instance.High), C.uint64_t(instance.Low)
	gateway := g.h.rlock()
	defer g.h.runlock()
	var time C.uint64_t
	err := check(C.kit_gateway_newest(gateway, s, sLen, high, low, C.uint64_t(start), &time))
	return uint64(time), err
}

// Streams are those that the gateway holds points of, each once.
func (g Gateway) Streams() (Streams, error) {
	gateway := g.h.rlock()
	defer g.h.runlock()
	h := newHandle[C.kit_streams]()
	return Streams{h}, check(C.kit_gateway_streams(gateway, &h.raw))
}

// Rows are those that answer an ask.
func (g Gateway) Rows(ask Ask) (Rows, error) {
	h := newHandle[C.kit_rows]()
	err := check(C.kit_gateway_rows(g.h.rlock(), ask.h.rlock(), &h.raw))
	g.h.runlock()
	ask.h.runlock()
	return newRows(h, err)
}

// Table is the rows that answer an ask, as a table.
func (g Gateway) Table(ask Ask) (string, error) {
	rows, err := g.Rows(ask)
	if err != nil {
		return "", err
	}
	defer rows.Close()
	return rows.Table()
}

// Sum gives the table of a sum, a line for each attribute set.
func (g Gateway) Sum(scope, name, unit string, monotonic bool) (string, error) {
	ask, err := AskSum(scope, name, unit, monotonic)
	if err != nil {
		return "", err
	}
	defer ask.Close()
	return g.Table(ask)
}

// Encode gives all points of the gateway as bytes, to be kept: MergeBytes brings them back.
func (g Gateway) Encode() ([]byte, error) {
	h := newHandle[C.kit_bytes]()
	err := check(C.kit_gateway_encode(g.h.rlock(), &h.raw))
	g.h.runlock()
	return takeBytes(h, err)
}

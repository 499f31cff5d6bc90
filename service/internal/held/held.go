// Package held has what a service's gateway holds in memory: a gateway of the kit, which takes, tells, forgets and is asked.
//
// Whoever changes something has the gateway's lock for as long as the kit's call takes. Those who ask have it together, for as long as the
// kit takes to answer. So nothing waits for an answer that is on its way to a slow reader.
package held

import (
	"errors"
	"sync"
	"sync/atomic"
	"time"

	kotskhin "kotskhin.example/sdk/go"
)

// ArchiveScope is that of tombstones: a gateway forgets the points of whom a point of this scope names.
const ArchiveScope = "kotskhin.archive"

// Held is what a gateway holds.
type Held struct {
	// Now is the clock by which an incarnation has ended.
	Now func() time.Time

	id      uint32
	gateway kotskhin.Gateway
	counts  *counts
	// Many take something in at a time; an archivist, from the adoption of points until they are forgotten, alone.
	taking sync.RWMutex
	// How often something changed: a look of an earlier time is not asked any more.
	changes uint64

	looking sync.Mutex
	last    *Look
	census  census
}

// New holds what a gateway has, within limits. The gateway is its own from then on.
func New(gateway kotskhin.Gateway, limits Limits) (*Held, error) {
	id, _, err := gateway.Head()
	if err != nil {
		return nil, err
	}
	h := &Held{Now: time.Now, id: id, gateway: gateway, counts: newCounts(limits)}
	_, err = h.Look()
	return h, err
}

// ID is that under which other gateways know this one.
func (h *Held) ID() uint32 { return h.id }

// Changes tells how often something changed so far.
func (h *Held) Changes() uint64 { return atomic.LoadUint64(&h.changes) }

// Counts tells how many points are held, and how many streams are known to be.
func (h *Held) Counts() (points, streams int) {
	// (nothing is refused of a gateway that nobody closes)
	_, points, _ = h.gateway.Head()
	return points, h.counts.knownStreams()
}

// Admit tells whether there is room for what a request brings. It takes nothing. What comes at the same time is not seen, so that a limit
// may be left by what is under way at once.
func (h *Held) Admit(brought *Brought) error {
	isNew, err := h.hasRoom(brought.Of)
	if err != nil || !isNew {
		return err
	}
	streams, err := brought.streams()
	if err != nil {
		return err
	}
	return h.counts.admitsStreams(streams)
}

func (h *Held) hasRoom(of []kotskhin.Incarnation) (isNew bool, err error) {
	_, points, err := h.gateway.Head()
	if err != nil {
		return false, err
	}
	return h.counts.admits(points, of)
}

// Take takes what a request brings, whole or not at all. It tells which exports are late: an archive adopted their incarnation before, so
// nothing of them is taken.
func (h *Held) Take(brought *Brought) (late []kotskhin.ExportHead, err error) {
	h.taking.RLock()
	defer h.taking.RUnlock()
	if brought.joined != nil {
		if _, err := h.gateway.Merge(*brought.joined); err != nil {
			return nil, err
		}
	}
	for _, export := range brought.exports {
		// (where all were merged nothing is left to be taken, and what memory is refused then says of none whether it is late)
		taking, err := h.gateway.Take(export)
		if err != nil && brought.joined == nil {
			return nil, err
		}
		if taking.Late {
			head, err := export.Head()
			if err != nil {
				return nil, err
			}
			late = append(late, head)
		}
	}
	if len(late) < brought.Exports {
		h.noteTaken(brought, late)
	}
	return late, nil
}

// noteTaken notes what was taken, but for what is late.
func (h *Held) noteTaken(brought *Brought, late []kotskhin.ExportHead) {
	h.noteChange()
	isLate := map[writer]bool{}
	for _, head := range late {
		isLate[writer{head.Service, head.Instance, head.Start}] = true
	}
	var of []kotskhin.Incarnation
	for _, head := range brought.Of {
		if !isLate[writerOf(head)] {
			of = append(of, head)
		}
	}
	var streams []kotskhin.Stream
	if h.counts.isNew(of) {
		// (what can't be listed for want of memory is listed at the next look)
		streams, _ = brought.streams()
	}
	h.counts.know(of, streams, h.Now())
}

// noteChange notes a change, and gives up the look that nobody is to ask any more.
func (h *Held) noteChange() {
	atomic.AddUint64(&h.changes, 1)
	if h.looking.TryLock() {
		defer h.looking.Unlock()
		h.last = nil
	}
}

// Hand takes in what another gateway tells, and gives the answer's bytes; none where there is no answer.
func (h *Held) Hand(message kotskhin.Message) (answer []byte, err error) {
	of, err := message.Incarnations()
	if err != nil {
		return nil, err
	}
	if _, err := h.hasRoom(of); err != nil {
		return nil, err
	}
	reply, isAnswered, err := h.hand(message, of)
	if err != nil {
		return nil, err
	}
	defer reply.Close()
	if !isAnswered {
		return nil, nil
	}
	return reply.Encode()
}

func (h *Held) hand(message kotskhin.Message, of []kotskhin.Incarnation) (answer kotskhin.Message, isAnswered bool, err error) {
	h.taking.RLock()
	defer h.taking.RUnlock()
	answer, isAnswered, err = h.gateway.Hand(message)
	if err == nil && len(of) > 0 {
		h.noteChange()
		h.counts.know(of, nil, h.Now())
	}
	return answer, isAnswered, err
}

// Tell is a message to the gateway of an id: all that it did not acknowledge.
func (h *Held) Tell(to uint32) ([]byte, error) {
	message, err := h.gateway.Send(to)
	if err != nil {
		return nil, err
	}
	defer message.Close()
	return message.Encode()
}

// ErrAnswer says that an answer is none that a gateway gives.
var ErrAnswer = errors.New("the answer is no acknowledgement")

// TakeAnswer takes in the answer to a message, which carries nothing.
func (h *Held) TakeAnswer(bytes []byte) error {
	message, err := kotskhin.DecodeMessage(bytes)
	if err != nil {
		return err
	}
	defer message.Close()
	reply, isAnswered, err := h.gateway.Hand(message)
	if err != nil {
		return err
	}
	reply.Close()
	if isAnswered {
		return ErrAnswer
	}
	return nil
}

// Encode is all that is held, as bytes to be kept. What a peer forgot is known no more then, also where nobody asks for pages.
func (h *Held) Encode() ([]byte, error) {
	if _, err := h.Look(); err != nil {
		return nil, err
	}
	return h.gateway.Encode()
}

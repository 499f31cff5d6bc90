package held

import (
	"time"

	kotskhin "kotskhin.example/sdk/go"
)

// ListEnded lists the incarnations of a service of which nothing newer had come for so long at a time of this gateway's clock.
func (h *Held) ListEnded(service string, length time.Duration, now time.Time) []kotskhin.Incarnation {
	return h.counts.endedOf(service, length, now)
}

// Alone is what is held while nobody takes anything in.
type Alone struct {
	of *Held
	// Gateway is what an archive adopts from.
	Gateway kotskhin.Gateway
}

// WithAlone calls a function while nobody takes anything in: what came between an adoption and the tombstone would count nowhere.
func (h *Held) WithAlone(call func(alone Alone) error) error {
	h.taking.Lock()
	defer h.taking.Unlock()
	return call(Alone{h, h.gateway})
}

// HasMoved tells whether something newer came of an incarnation than it says.
func (a Alone) HasMoved(i kotskhin.Incarnation) bool { return a.of.counts.newestOf(i) != i.Newest }

// Forget takes an archive's export, and with it forgets the incarnations that it names.
func (a Alone) Forget(export kotskhin.Export, named []kotskhin.Incarnation) error {
	if _, err := a.Gateway.Take(export); err != nil {
		return err
	}
	a.of.noteChange()
	a.Gone(named)
	return nil
}

// Gone notes that nothing is held of these.
func (a Alone) Gone(of []kotskhin.Incarnation) { a.of.counts.forget(of) }

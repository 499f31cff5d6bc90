package held

import kotskhin "kotskhin.example/sdk/go"

// Brought is what one request brings: it is taken whole, or not at all.
type Brought struct {
	exports []kotskhin.Export
	// Several exports, joined before anything is taken.
	joined *kotskhin.Gateway
	bytes  []byte
	// Of whom it is, and how many points it has of each.
	Of      []kotskhin.Incarnation
	Exports int
	Points  int
}

// Bring is what exports bring. Bytes are those of an export that comes alone, where they are at hand.
func Bring(exports []kotskhin.Export, bytes []byte) (*Brought, error) {
	brought := &Brought{exports: exports, Exports: len(exports), bytes: bytes}
	if len(exports) != 1 {
		return brought, brought.join(exports)
	}
	head, err := exports[0].Head()
	if err != nil {
		return nil, err
	}
	brought.Points = head.Points
	brought.Of = []kotskhin.Incarnation{{
		Service: head.Service, Instance: head.Instance, Start: head.Start, Newest: head.Time, Points: head.Points,
	}}
	return brought, nil
}

// Bytes are those by which it is kept: of the export, or of a gateway that took them all.
func (b *Brought) Bytes() (bytes []byte, err error) {
	switch {
	case b.bytes != nil:
		return b.bytes, nil
	case b.joined != nil:
		return b.joined.Encode()
	}
	return b.exports[0].Encode()
}

func (b *Brought) join(exports []kotskhin.Export) error {
	joined, err := kotskhin.OpenGateway(0)
	if err != nil {
		return err
	}
	b.joined = &joined
	for _, export := range exports {
		if _, err := joined.Take(export); err != nil {
			return err
		}
	}
	if _, b.Points, err = b.joined.Head(); err != nil {
		return err
	}
	b.Of, err = b.joined.Incarnations()
	return err
}

// Close gives up what was joined; the exports are the caller's.
func (b *Brought) Close() {
	if b.joined != nil {
		b.joined.Close()
	}
}

// HasScope tells whether it has points of a scope.
func (b *Brought) HasScope(scope string) (bool, error) {
	streams, err := b.streams()
	return hasScope(streams, scope), err
}

func hasScope(streams []kotskhin.Stream, scope string) bool {
	for _, stream := range streams {
		if stream.Scope == scope {
			return true
		}
	}
	return false
}

// streams are those that it has points of.
func (b *Brought) streams() ([]kotskhin.Stream, error) {
	if b.joined != nil {
		return allOf(b.joined.Streams())
	}
	return allOf(b.exports[0].Streams())
}

func allOf(streams kotskhin.Streams, err error) ([]kotskhin.Stream, error) {
	if err != nil {
		return nil, err
	}
	defer streams.Close()
	return streams.All()
}

package metric

import (
	"context"
	"errors"
	"fmt"
	"time"

	kotskhin "kotskhin.example/sdk/go"
)

// FirstOf brings each export by one of several exporters, as to gateways of which any may take it: by the one that took the last one, and
// where that fails by the next. It fails where all did, and at once by a *NotTakenError: others would say the same. An export may come to
// more than one, which gateways do not mind. Where the context has a deadline, each has its part of the time that is left.
func FirstOf(exporters ...Exporter) Exporter { return &firstOf{exporters: exporters} }

type firstOf struct {
	exporters []Exporter
	// (calls come one after another)
	last int
}

// Export tries one after the other.
func (f *firstOf) Export(ctx context.Context, export kotskhin.Export) error {
	var failed []error
	for turn := range f.exporters {
		number := (f.last + turn) % len(f.exporters)
		err := inPart(ctx, len(f.exporters)-turn, func(ctx context.Context) error { return f.exporters[number].Export(ctx, export) })
		if err == nil || isNotTaken(err) {
			f.last = number
			return err
		}
		failed = append(failed, err)
		if ctx.Err() != nil {
			break
		}
	}
	if len(failed) == 0 {
		return errors.New("kotskhin: there is no exporter")
	}
	return fmt.Errorf("each of %d failed, the last one: %w", len(failed), failed[len(failed)-1])
}

// inPart calls with one of so many parts of the time that is left.
func inPart(ctx context.Context, parts int, call func(ctx context.Context) error) error {
	end, ok := ctx.Deadline()
	if !ok {
		return call(ctx)
	}
	ctx, cancel := context.WithTimeout(ctx, time.Until(end)/time.Duration(parts))
	defer cancel()
	return call(ctx)
}

// Shutdown ends all of them, also where one panics.
func (f *firstOf) Shutdown(ctx context.Context) (err error) {
	for _, exporter := range f.exporters {
		if fault := guard(func() error { return exporter.Shutdown(ctx) }); err == nil {
			err = fault
		}
	}
	return err
}

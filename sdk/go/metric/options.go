package metric

import (
	"errors"
	"fmt"
	"strings"

	kotskhin "kotskhin.example/sdk/go"
	"kotskhin.example/sdk/go/attribute"
)

// The attributes of a resource that are kept.
const (
	ServiceName       = "service.name"
	ServiceInstanceID = "service.instance.id"
)

// DefaultHeld is how many attribute sets, over all instruments, have a number of their own where nothing else is said.
const DefaultHeld = 10000

// Option is an option of NewMeterProvider.
type Option func(*config) error

type config struct {
	service   string
	instance  *kotskhin.Instance
	views     []kotskhin.View
	limit     uint64
	held      int
	readers   []*PeriodicReader
	onRefused func(Refusal)
}

// WithResource says whose the measurements are, by ServiceName, and ServiceInstanceID as a UUID: one is drawn anew where there is none.
func WithResource(attributes ...attribute.KeyValue) Option {
	return func(c *config) error {
		for _, pair := range attributes {
			switch pair.Key {
			case ServiceName:
				c.service = pair.Value.AsString()
			case ServiceInstanceID:
				instance, err := instanceOf(pair.Value.AsString())
				if err != nil {
					return err
				}
				c.instance = &instance
			default:
				return fmt.Errorf("kotskhin: of a resource %s and %s are kept, and no %s", ServiceName, ServiceInstanceID, pair.Key)
			}
		}
		return nil
	}
}

func instanceOf(uuid string) (kotskhin.Instance, error) {
	var instance kotskhin.Instance
	digits := strings.ReplaceAll(uuid, "-", "")
	if len(digits) == 32 {
		if n, err := fmt.Sscanf(digits, "%16x%16x", &instance.High, &instance.Low); err == nil && n == 2 {
			return instance, nil
		}
	}
	return instance, fmt.Errorf("kotskhin: %q is no UUID", uuid)
}

// WithReader adds a reader.
func WithReader(reader *PeriodicReader) Option {
	return func(c *config) error {
		c.readers = append(c.readers, reader)
		return nil
	}
}

// WithView adds views.
func WithView(views ...kotskhin.View) Option {
	return func(c *config) error {
		for _, view := range views {
			if strings.ContainsAny(view.Name, "*?") {
				return fmt.Errorf("kotskhin: a view is of one name, or without a name of every one: %q is neither", view.Name)
			}
		}
		c.views = append(c.views, views...)
		return nil
	}
}

// WithCardinalityLimit says for how many attribute sets a stream has points of their own.
func WithCardinalityLimit(limit uint64) Option {
	return func(c *config) error {
		c.limit = limit
		return nil
	}
}

// WithHeldLimit bounds how many attribute sets, over all instruments, are looked up by a number: others are made anew at each recording.
func WithHeldLimit(held int) Option {
	return func(c *config) error {
		if held < 0 {
			return kotskhin.ErrRange
		}
		c.held = held
		return nil
	}
}

// WithOnRefused calls a function with each refusal, from the goroutine that declares, records, collects or flushes. It is to return soon.
// What is refused to itself is counted, and logged.
func WithOnRefused(call func(Refusal)) Option {
	return func(c *config) error {
		c.onRefused = call
		return nil
	}
}

// InstrumentOption is an option of an instrument.
type InstrumentOption func(*instrumentConfig)

type instrumentConfig struct {
	unit   string
	bounds []int64
}

// WithUnit gives an instrument a unit.
func WithUnit(unit string) InstrumentOption { return func(c *instrumentConfig) { c.unit = unit } }

// WithDescription says what an instrument is for. It is not kept.
func WithDescription(string) InstrumentOption { return func(*instrumentConfig) {} }

// WithExplicitBucketBoundaries advises bounds of a histogram, which hold unless a view is of it.
func WithExplicitBucketBoundaries(bounds ...int64) InstrumentOption {
	return func(c *instrumentConfig) { c.bounds = append([]int64{}, bounds...) }
}

// MeasurementOption is an option of a recording.
type MeasurementOption struct {
	pairs []attribute.KeyValue
	set   attribute.Set
	isSet bool
}

// WithAttributes records at attributes.
func WithAttributes(attributes ...attribute.KeyValue) MeasurementOption {
	return MeasurementOption{pairs: attributes}
}

// WithAttributeSet records at a set that was made before.
func WithAttributeSet(set attribute.Set) MeasurementOption {
	return MeasurementOption{set: set, isSet: true}
}

// ErrStarted says that an instrument is declared after its provider started, which a plan does not allow.
var ErrStarted = errors.New("kotskhin: the provider has started: declare all instruments before the first recording")

// ErrCardinalityLimit says that a stream has as many attribute sets as the limit allows, at the first set beyond it.
var ErrCardinalityLimit = errors.New("kotskhin: CARDINALITY_LIMIT: the stream has as many attribute sets as the limit allows: further " +
	"sets are counted together, in the point otel.metric.overflow=true")

// Refusal is a recording that was refused: of which instrument, and why. It is an error.
//
// It also tells, once, what counts no recording: a view that can't be applied to an instrument (a *ViewError), and the first set of a
// stream beyond the limit (ErrCardinalityLimit), whose name is then the instrument's.
type Refusal struct {
	Scope, Instrument string
	// Recordings is 1, or 0 of what counts none.
	Recordings int
	Value      int64
	Attributes []attribute.KeyValue
	Err        error
}

// Error says what was refused, and why.
func (r Refusal) Error() string { return r.describe(fmt.Sprint(r.Err)) }

// describe says what was refused, before a text of why.
func (r Refusal) describe(why string) string {
	if r.Recordings == 0 {
		return fmt.Sprintf("%q of %q: %s", r.Instrument, r.Scope, why)
	}
	return fmt.Sprintf("a recording of %d by %q of %q is refused: %s", r.Value, r.Instrument, r.Scope, why)
}

// Unwrap is why.
func (r Refusal) Unwrap() error { return r.Err }

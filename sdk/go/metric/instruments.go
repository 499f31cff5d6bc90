package metric

import (
	"context"

	kotskhin "kotskhin.example/sdk/go"
	"kotskhin.example/sdk/go/attribute"
)

// An instrument of a provider.
type instrument struct {
	provider          *MeterProvider
	number            int
	scope, name, unit string
	kind              kotskhin.Kind
	bounds            []int64
	// Those that are applied to it.
	views []kotskhin.View
	// Why it was not declared: each of its recordings is refused so.
	fault error
}

// Meter makes the instruments of one scope.
type Meter struct {
	provider *MeterProvider
	scope    string
}

// Int64Counter is a sum that only rises.
type Int64Counter struct{ instrument *instrument }

// Int64UpDownCounter is a sum that rises and falls.
type Int64UpDownCounter struct{ instrument *instrument }

// Int64Gauge is the last value.
type Int64Gauge struct{ instrument *instrument }

// Int64Histogram tells how values of at least 0 lie between bounds.
type Int64Histogram struct{ instrument *instrument }

// Int64Counter declares a counter. Refused are ErrStarted, and a name, a unit or a scope that the kit refuses.
func (m Meter) Int64Counter(name string, options ...InstrumentOption) (Int64Counter, error) {
	i, err := m.declare(name, kotskhin.Counter, options)
	return Int64Counter{i}, err
}

// Int64UpDownCounter declares an up-down counter.
func (m Meter) Int64UpDownCounter(name string, options ...InstrumentOption) (Int64UpDownCounter, error) {
	i, err := m.declare(name, kotskhin.UpDown, options)
	return Int64UpDownCounter{i}, err
}

// Int64Gauge declares a gauge.
func (m Meter) Int64Gauge(name string, options ...InstrumentOption) (Int64Gauge, error) {
	i, err := m.declare(name, kotskhin.Gauge, options)
	return Int64Gauge{i}, err
}

// Int64Histogram declares a histogram.
func (m Meter) Int64Histogram(name string, options ...InstrumentOption) (Int64Histogram, error) {
	i, err := m.declare(name, kotskhin.Histogram, options)
	return Int64Histogram{i}, err
}

func (m Meter) declare(name string, kind kotskhin.Kind, options []InstrumentOption) (*instrument, error) {
	var config instrumentConfig
	for _, option := range options {
		option(&config)
	}
	declared := &instrument{provider: m.provider, scope: m.scope, name: name, unit: config.unit, kind: kind}
	if kind == kotskhin.Histogram {
		declared.bounds = config.bounds
	}
	known, err := m.provider.declare(declared)
	if err != nil {
		declared.fault = err
		return declared, err
	}
	return known, nil
}

// Add adds an amount of at least 0. It answers nothing and waits for nobody: what is refused is counted and told to the provider's hook.
func (c Int64Counter) Add(_ context.Context, amount int64, options ...MeasurementOption) {
	c.instrument.record(amount, options)
}

// Add adds an amount of either sign.
func (c Int64UpDownCounter) Add(_ context.Context, amount int64, options ...MeasurementOption) {
	c.instrument.record(amount, options)
}

// Record sets the value.
func (g Int64Gauge) Record(_ context.Context, value int64, options ...MeasurementOption) {
	g.instrument.record(value, options)
}

// Record records a value of at least 0.
func (h Int64Histogram) Record(_ context.Context, value int64, options ...MeasurementOption) {
	h.instrument.record(value, options)
}

// record notes a value in a shard. A zero instrument is of no provider, and does nothing.
func (i *instrument) record(value int64, options []MeasurementOption) {
	if i == nil {
		return
	}
	if i.fault != nil {
		i.refuse(value, allPairs(options), i.fault)
		return
	}
	var room [192]byte
	form := i.appendForm(room[:0], options)
	running, _ := i.provider.running.Load().(*engine)
	if running == nil || !running.note(i, form, value) {
		i.recordAnew(value, allPairs(options), string(form))
	}
}

// appendForm appends a form of the instrument's number and the pairs.
func (i *instrument) appendForm(to []byte, options []MeasurementOption) []byte {
	to = append(to, byte(i.number), byte(i.number>>8), byte(i.number>>16), byte(i.number>>24))
	for i := range options {
		if option := &options[i]; option.isSet {
			to = append(to, option.set.Form()...)
		} else {
			to = attribute.AppendForm(to, option.pairs)
		}
	}
	return to
}

// allPairs copies the pairs of the options.
func allPairs(options []MeasurementOption) []attribute.KeyValue {
	var all []attribute.KeyValue
	for i := range options {
		if options[i].isSet {
			all = append(all, options[i].set.Pairs()...)
		} else {
			all = append(all, options[i].pairs...)
		}
	}
	return all
}

// recordAnew is a recording at a set that has no number yet, or that no shard takes.
func (i *instrument) recordAnew(value int64, pairs []attribute.KeyValue, form string) {
	running, err := i.provider.ensureRunning()
	if err != nil {
		i.refuse(value, pairs, err)
		return
	}
	if err := running.measure(i, value, pairs, form); err != nil {
		i.refuse(value, pairs, err)
	}
}

func (i *instrument) refuse(value int64, pairs []attribute.KeyValue, err error) {
	i.provider.refuse(Refusal{i.scope, i.name, 1, value, pairs, err})
}

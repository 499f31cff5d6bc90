// Package metric has the names of OpenTelemetry's metrics API and SDK, over the kit.
//
// Three things are other than there. Instruments are declared before the provider starts, which the first recording does, or Start.
// Values are whole numbers of 64 bits. And of a scope its name alone is kept, of a resource ServiceName and ServiceInstanceID.
//
// Goroutines record into shards, which the writer takes in where one is full and before each collection: so totals are exact. Recording
// answers nothing. What is refused is counted (Refused) and told to a hook (WithOnRefused).
package metric

import (
	"context"
	"fmt"
	"sync"
	"sync/atomic"
	"time"

	kotskhin "kotskhin.example/sdk/go"
)

// MeterProvider is a writer, the instruments that record into it, and the readers that collect from it.
type MeterProvider struct {
	config   config
	instance kotskhin.Instance
	// An *engine, once it has started.
	running atomic.Value
	refused uint64
	// How many calls of hooks and exporters run.
	calls int32

	lock        sync.Mutex
	instruments []*instrument
	// The number of the instrument that feeds a stream.
	fed       map[string]int
	startedAt string
	isClosed  bool
	told      map[string]bool
	// It is closed once the shutdown has ended, which came to an outcome.
	ended   chan struct{}
	outcome error
}

// NewMeterProvider is a provider that has not started. Refused is what is wrong with resource and limit. A view that is wrong by itself is
// passed over: see Refusal.
func NewMeterProvider(options ...Option) (*MeterProvider, error) {
	p := &MeterProvider{fed: map[string]int{}, told: map[string]bool{}, ended: make(chan struct{})}
	p.config = config{service: "unknown_service", limit: kotskhin.DefaultLimit, held: DefaultHeld}
	for _, apply := range options {
		if err := apply(&p.config); err != nil {
			return nil, err
		}
	}
	if p.config.instance == nil {
		instance, err := kotskhin.UniqueInstance()
		if err != nil {
			return nil, err
		}
		p.config.instance = &instance
	}
	p.instance = *p.config.instance
	if err := p.check(); err != nil {
		return nil, err
	}
	for _, reader := range p.config.readers {
		if err := reader.attach(p); err != nil {
			return nil, err
		}
	}
	return p, nil
}

// check refuses what would be refused at each declaration, or at the start.
func (p *MeterProvider) check() error {
	for _, view := range p.config.views {
		if err := planFault(nil, []kotskhin.View{view}, 1); err != nil && !isInapplicable(err) {
			return err
		}
	}
	plan, err := kotskhin.PlanWith(nil, nil, p.config.limit)
	if err != nil {
		return err
	}
	defer plan.Close()
	writer, err := kotskhin.StartWriter(plan, p.config.service, p.instance, 0)
	if err != nil {
		return err
	}
	return writer.Close()
}

// Meter makes the instruments of a scope.
func (p *MeterProvider) Meter(scope string) Meter { return Meter{p, scope} }

// Instance is that of the provider's writer.
func (p *MeterProvider) Instance() kotskhin.Instance { return p.instance }

// Refused tells how many recordings were refused so far.
func (p *MeterProvider) Refused() uint64 { return atomic.LoadUint64(&p.refused) }

// declare is the instrument of these words: one that is declared already is the same. Views that can't be applied to it are told.
func (p *MeterProvider) declare(i *instrument) (*instrument, error) {
	known, inapplicable, err := p.addOrFind(i)
	if err != nil {
		return nil, err
	}
	for _, refusal := range inapplicable {
		p.tell(refusal)
	}
	return known, nil
}

// addOrFind finds an instrument of the same words, or else adds this one.
func (p *MeterProvider) addOrFind(i *instrument) (known *instrument, inapplicable []Refusal, err error) {
	p.lock.Lock()
	defer p.lock.Unlock()
	for _, known := range p.instruments {
		if known.scope == i.scope && isOneName(known.name, i.name) && known.unit == i.unit && known.kind == i.kind {
			return known, nil, nil
		}
	}
	if p.startedAt != "" {
		return nil, nil, fmt.Errorf("the instrument %q of %q is declared at %s, after a start at %s: %w", i.name, i.scope,
			caller(), p.startedAt, ErrStarted)
	}
	if inapplicable, err = p.prepare(i); err != nil {
		return nil, nil, fmt.Errorf("the instrument %q of %q: %w", i.name, i.scope, err)
	}
	p.instruments = append(p.instruments, i)
	return i, inapplicable, nil
}

// prepare gives an instrument its views and a number, and tells which views can't be applied to it. What is refused is the instrument's:
// its own words, its advice, or that it feeds a stream of another one.
func (p *MeterProvider) prepare(i *instrument) (inapplicable []Refusal, err error) {
	i.number = len(p.instruments)
	if err = planFault([]kotskhin.Instrument{i.kitInstrument()}, []kotskhin.View{{Bounds: i.bounds}}, 1); err != nil {
		return nil, err
	}
	if inapplicable, err = i.applyViews(p.config.views); err != nil {
		return nil, err
	}
	feeds, err := i.feeds()
	if err != nil {
		return nil, err
	}
	for _, stream := range feeds {
		if first, ok := p.fed[stream]; ok {
			return nil, kotskhin.Refused{Code: kotskhin.ErrSameStream, Place: uint64(first), Second: uint64(i.number)}
		}
	}
	for _, stream := range feeds {
		p.fed[stream] = i.number
	}
	return inapplicable, nil
}

// Start starts the provider, if it has not: no other instrument is declared from now on. Refused is memory alone.
func (p *MeterProvider) Start() error {
	isNew, err := p.start()
	if isNew {
		// (once all is done, since what is logged may be recorded)
		for _, view := range p.config.views {
			if !p.isOfAny(view) {
				logLine("kotskhin: the view of %q is of no instrument", view.Name)
			}
		}
	}
	return err
}

// isOfAny tells whether a view is of an instrument.
func (p *MeterProvider) isOfAny(view kotskhin.View) bool {
	p.lock.Lock()
	defer p.lock.Unlock()
	for _, i := range p.instruments {
		if i.matches(view) {
			return true
		}
	}
	return false
}

func (p *MeterProvider) start() (isNew bool, err error) {
	p.lock.Lock()
	defer p.lock.Unlock()
	if p.startedAt != "" || p.isClosed {
		return false, nil
	}
	plan, err := planOf(p.instruments, p.config.limit)
	if err != nil {
		return false, err
	}
	defer plan.Close()
	limits, err := newLimited(plan, p.config.limit)
	if err != nil {
		return false, err
	}
	start := now()
	writer, err := kotskhin.StartWriter(plan, p.config.service, p.instance, start)
	if err != nil {
		return false, err
	}
	p.startedAt = caller()
	p.running.Store(newEngine(p, writer, limits, start))
	for _, reader := range p.config.readers {
		reader.begin()
	}
	return true, nil
}

// ensureRunning starts the provider, if it has not.
func (p *MeterProvider) ensureRunning() (*engine, error) {
	if running, ok := p.running.Load().(*engine); ok {
		return running, nil
	}
	if err := p.Start(); err != nil {
		return nil, err
	}
	if running, ok := p.running.Load().(*engine); ok {
		return running, nil
	}
	return nil, kotskhin.Refused{Code: kotskhin.ErrClosed}
}

// refuse counts a recording that was refused, and tells it.
func (p *MeterProvider) refuse(refusal Refusal) {
	atomic.AddUint64(&p.refused, 1)
	p.tell(refusal)
}

// tell tells a refusal to the hook. Without one the first of each instrument and reason is logged, and so it is where the hook itself is
// refused: else it would be called again without end.
func (p *MeterProvider) tell(refusal Refusal) {
	if p.config.onRefused != nil && !isWithin(tellHook) {
		p.tellHook(refusal)
	} else if !isWithin(logged) && p.isFirst(refusal) {
		logLine("kotskhin: %s", refusal.describe(withoutPrefix(refusal.Err)))
	}
}

func (p *MeterProvider) tellHook(refusal Refusal) {
	if err := p.call(func() error { p.config.onRefused(refusal); return nil }); err != nil {
		logLine("kotskhin: the hook of refusals: %v", err)
	}
}

// isFirst tells whether it is the first refusal of its instrument and reason.
func (p *MeterProvider) isFirst(refusal Refusal) bool {
	kind := refusal.Scope + "\x00" + refusal.Instrument + "\x00" + refusal.Err.Error()
	p.lock.Lock()
	defer p.lock.Unlock()
	isNew := !p.told[kind] && len(p.told) < 1000
	p.told[kind] = p.told[kind] || isNew
	return isNew
}

// Collect collects all that was recorded so far: the caller closes the export. Before the start, and after the shutdown, it is refused as
// kotskhin.ErrClosed.
func (p *MeterProvider) Collect() (kotskhin.Export, error) {
	if running, ok := p.running.Load().(*engine); ok {
		return running.collect(false)
	}
	return kotskhin.Export{}, kotskhin.Refused{Code: kotskhin.ErrClosed}
}

// ForceFlush collects and exports by each reader now; the error is the first that there is. In a hook or an exporter of the provider it
// is ErrReentered.
func (p *MeterProvider) ForceFlush(ctx context.Context) error {
	if p.isReentered() {
		return ErrReentered
	}
	return p.each(func(reader *PeriodicReader) error { return reader.ForceFlush(ctx) })
}

// Shutdown collects for the last time, and closes the writer: recordings are refused as kotskhin.ErrClosed from then on. Each reader
// exports that, and ends. The error is the first that there is: an *ExportError has the bytes that were not brought, which no later
// export covers.
//
// It ends when the context does, also where an exporter does not heed that; without a deadline it may wait for ever. Where the context
// has ended nothing is brought, and the writer and the readers are closed all the same. A later call waits for the first one, and answers
// as it did: nil where all was brought. In a hook or an exporter of the provider it is ErrReentered.
func (p *MeterProvider) Shutdown(ctx context.Context) error {
	if p.isReentered() {
		return ErrReentered
	}
	p.lock.Lock()
	isFirst := !p.isClosed
	p.isClosed = true
	p.lock.Unlock()
	if isFirst {
		p.outcome = p.shutdown(ctx)
		close(p.ended)
		return p.outcome
	}
	return p.awaitShutdown(ctx)
}

// awaitShutdown waits for the shutdown of another call, and answers as it did.
func (p *MeterProvider) awaitShutdown(ctx context.Context) error {
	select {
	case <-p.ended:
		return p.outcome
	default:
	}
	select {
	case <-p.ended:
		return p.outcome
	case <-ctx.Done():
		return fmt.Errorf("kotskhin: another call of Shutdown goes on: %w", ctx.Err())
	}
}

func (p *MeterProvider) shutdown(ctx context.Context) error {
	var last *kotskhin.Export
	var first error
	if running, ok := p.running.Load().(*engine); ok {
		export, err := running.collect(true)
		if err != nil {
			first = err
		} else {
			last = &export
		}
	}
	if err := p.each(func(reader *PeriodicReader) error { return reader.end(ctx, last) }); first == nil {
		first = err
	}
	return first
}

// each makes a call for each reader, all at once, so that none takes the time of another, and gives the first error in their order.
func (p *MeterProvider) each(call func(*PeriodicReader) error) error {
	errs := make([]error, len(p.config.readers))
	var group sync.WaitGroup
	for i, reader := range p.config.readers {
		group.Add(1)
		go func(i int, reader *PeriodicReader) {
			defer group.Done()
			errs[i] = call(reader)
		}(i, reader)
	}
	group.Wait()
	for _, err := range errs {
		if err != nil {
			return err
		}
	}
	return nil
}

func now() uint64 {
	if since := time.Now().UnixNano(); since > 0 {
		return uint64(since)
	}
	return 0
}

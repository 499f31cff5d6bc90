package metric

import (
	"context"
	"errors"
	"fmt"
	"sync"
	"sync/atomic"
	"time"

	kotskhin "kotskhin.example/sdk/go"
)

// Exporter brings exports to where they are taken. Its calls come one after another. An export is closed once the call returns.
type Exporter interface {
	// Export brings an export, until the context ends. One that fails is not tried again: exports are cumulative, so the next one covers
	// it.
	Export(ctx context.Context, export kotskhin.Export) error
	// Shutdown ends the exporter. No call comes after it.
	Shutdown(ctx context.Context) error
}

// ExporterFunc is an exporter that has nothing to end.
type ExporterFunc func(ctx context.Context, export kotskhin.Export) error

// Export calls the function.
func (f ExporterFunc) Export(ctx context.Context, export kotskhin.Export) error {
	return f(ctx, export)
}

// Shutdown does nothing.
func (f ExporterFunc) Shutdown(context.Context) error { return nil }

// ExportError says that an export was not brought, and why; Unsent has its bytes where it is the last one of a writer.
type ExportError struct {
	Err    error
	Unsent []byte
}

// Error says why.
func (e *ExportError) Error() string {
	return "kotskhin: an export was not brought: " + withoutPrefix(e.Err)
}

// Unwrap is why.
func (e *ExportError) Unwrap() error { return e.Err }

// Where nothing else is said, as OpenTelemetry's SDK has it.
const (
	DefaultInterval = 60 * time.Second
	DefaultTimeout  = 30 * time.Second
)

// PeriodicReader collects from its provider once in an interval, on a goroutine of its own, and gives each export to an exporter.
//
// An export that fails is counted (Failed), and told to a hook, or logged. One that takes longer than its timeout fails as
// context.DeadlineExceeded; while its exporter goes on, ticks are left out.
type PeriodicReader struct {
	exporter          Exporter
	interval, timeout time.Duration
	onFailed          func(error)
	failed            uint64

	lock     sync.Mutex
	provider *MeterProvider
	// It ends the goroutine, and the export that this waits for: there is none before the provider's start.
	stop    context.CancelFunc
	isEnded bool
	// It has one thing while no call of the exporter's runs.
	free chan struct{}
}

// ReaderOption is an option of NewPeriodicReader.
type ReaderOption func(*PeriodicReader)

// WithInterval says how long it is from one collection to the next.
func WithInterval(interval time.Duration) ReaderOption {
	return func(r *PeriodicReader) { r.interval = interval }
}

// WithTimeout says how long an export may take.
func WithTimeout(timeout time.Duration) ReaderOption {
	return func(r *PeriodicReader) { r.timeout = timeout }
}

// WithOnFailed calls a function with the reason of each export that fails, from the goroutine of the reader, or of who flushes or shuts
// down. A flush or a shutdown by itself is refused as ErrReentered.
func WithOnFailed(call func(error)) ReaderOption {
	return func(r *PeriodicReader) { r.onFailed = call }
}

// NewPeriodicReader is a reader, for one provider. An interval or a timeout that is not above 0 is the default one.
func NewPeriodicReader(exporter Exporter, options ...ReaderOption) *PeriodicReader {
	r := &PeriodicReader{exporter: exporter, free: make(chan struct{}, 1)}
	for _, option := range options {
		option(r)
	}
	if r.interval <= 0 {
		r.interval = DefaultInterval
	}
	if r.timeout <= 0 {
		r.timeout = DefaultTimeout
	}
	r.free <- struct{}{}
	return r
}

// Failed tells how many exports failed so far, or were not collected.
func (r *PeriodicReader) Failed() uint64 { return atomic.LoadUint64(&r.failed) }

func (r *PeriodicReader) attach(provider *MeterProvider) error {
	r.lock.Lock()
	defer r.lock.Unlock()
	if r.provider != nil {
		return errors.New("kotskhin: a reader is of one provider")
	}
	r.provider = provider
	return nil
}

func (r *PeriodicReader) begin() {
	r.lock.Lock()
	defer r.lock.Unlock()
	if r.stop == nil {
		ctx, stop := context.WithCancel(context.Background())
		r.stop = stop
		go r.run(ctx)
	}
}

func (r *PeriodicReader) run(ctx context.Context) {
	ticks := time.NewTicker(r.interval)
	defer ticks.Stop()
	for {
		select {
		case <-ticks.C:
			select {
			case <-r.free:
				r.push(ctx)
			default:
			}
		case <-ctx.Done():
			return
		}
	}
}

// take takes the exporter, once it is free.
func (r *PeriodicReader) take(ctx context.Context) error {
	if err := ctx.Err(); err != nil {
		return err
	}
	select {
	case <-r.free:
		return nil
	case <-ctx.Done():
		return ctx.Err()
	}
}

// push is one collection and its export, by the exporter, which was taken.
func (r *PeriodicReader) push(ctx context.Context) error {
	export, err := r.provider.Collect()
	if err != nil {
		r.free <- struct{}{}
		if isClosed(err) {
			return nil
		}
		return r.tell(&ExportError{Err: err})
	}
	if err := r.bring(ctx, export, false); err != nil {
		return r.tell(&ExportError{Err: err})
	}
	return nil
}

// bring gives an export to the exporter, which was taken, and is free again once that call returns. It ends with the context or the time
// at the latest. The last export is of other readers, too: its finalizer closes it.
func (r *PeriodicReader) bring(ctx context.Context, export kotskhin.Export, isLast bool) error {
	ctx, cancel := context.WithTimeout(ctx, r.timeout)
	defer cancel()
	answer := make(chan error, 1)
	go func() {
		err := r.provider.call(func() error { return r.exporter.Export(ctx, export) })
		if !isLast {
			export.Close()
		}
		r.free <- struct{}{}
		answer <- err
	}()
	select {
	case err := <-answer:
		return err
	case <-ctx.Done():
		return ctx.Err()
	}
}

// tell counts an export that failed, and tells it.
func (r *PeriodicReader) tell(err *ExportError) error {
	atomic.AddUint64(&r.failed, 1)
	if r.onFailed == nil {
		logLine("%v", err)
	} else if fault := r.provider.call(func() error { r.onFailed(err); return nil }); fault != nil {
		logLine("kotskhin: the hook of failures: %v", fault)
	}
	return err
}

// ForceFlush collects and exports now. In a hook or an exporter of the provider it is ErrReentered.
func (r *PeriodicReader) ForceFlush(ctx context.Context) error {
	r.lock.Lock()
	isRunning := r.stop != nil && !r.isEnded
	r.lock.Unlock()
	if !isRunning {
		return nil
	}
	if r.provider.isReentered() {
		return ErrReentered
	}
	if err := r.take(ctx); err != nil {
		return &ExportError{Err: err}
	}
	return r.push(ctx)
}

// end exports what was collected last, where there is anything, and ends the exporter and the goroutine.
func (r *PeriodicReader) end(ctx context.Context, last *kotskhin.Export) error {
	r.lock.Lock()
	stop := r.stop
	r.isEnded = true
	r.lock.Unlock()
	if stop != nil {
		defer stop()
	}
	var first error
	if last != nil {
		first = r.pushLast(ctx, *last)
	}
	if err := r.endExporter(ctx); first == nil {
		first = err
	}
	return first
}

func (r *PeriodicReader) pushLast(ctx context.Context, last kotskhin.Export) error {
	err := r.takeAndBring(ctx, last)
	if err == nil {
		return nil
	}
	unsent, _ := last.Encode()
	return r.tell(&ExportError{Err: err, Unsent: unsent})
}

func (r *PeriodicReader) takeAndBring(ctx context.Context, last kotskhin.Export) error {
	if err := r.take(ctx); err != nil {
		return err
	}
	return r.bring(ctx, last, true)
}

// endExporter ends the exporter, once no call of it runs; it is not free again. Where the context ends before, that goes on.
func (r *PeriodicReader) endExporter(ctx context.Context) error {
	answer := make(chan error, 1)
	go func() {
		<-r.free
		answer <- r.provider.call(func() error { return r.exporter.Shutdown(ctx) })
	}()
	select {
	case err := <-answer:
		return err
	case <-ctx.Done():
		return fmt.Errorf("kotskhin: the exporter has not ended: %w", ctx.Err())
	}
}

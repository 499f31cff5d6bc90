package metric

import (
	"context"
	"errors"
	"log"
	"os"
	"runtime"
	"strings"
	"sync"
	"sync/atomic"
	"testing"
	"time"

	kotskhin "kotskhin.example/sdk/go"
)

// An exporter of functions, of which any may be missing.
type ending struct {
	export   func(ctx context.Context, export kotskhin.Export) error
	shutdown func(ctx context.Context) error
}

func (e ending) Export(ctx context.Context, export kotskhin.Export) error {
	if e.export == nil {
		return nil
	}
	return e.export(ctx, export)
}

func (e ending) Shutdown(ctx context.Context) error {
	if e.shutdown == nil {
		return nil
	}
	return e.shutdown(ctx)
}

// within fails a test that is not done in time.
func within(t *testing.T, what string, call func()) {
	t.Helper()
	done := make(chan struct{})
	go func() {
		defer close(done)
		call()
	}()
	select {
	case <-done:
	case <-time.After(time.Minute):
		t.Fatal(what + " does not end")
	}
}

func ended() context.Context {
	made, cancel := context.WithCancel(ctx)
	cancel()
	return made
}

// A shutdown beside another one waits for it, as long as its context is, and answers as that one did.
func TestAShutdownWaitsForAnother(t *testing.T) {
	for _, wanted := range []error{nil, errors.New("no route")} {
		goes, came := make(chan struct{}), make(chan struct{})
		p, requests := counting(t, NewPeriodicReader(ExporterFunc(func(context.Context, kotskhin.Export) error {
			close(came)
			<-goes
			return wanted
		}), WithOnFailed(func(error) {})))
		requests.Add(ctx, 7)
		answers := make(chan error, 3)
		shut := func() { answers <- p.Shutdown(ctx) }
		go shut()
		<-came
		go shut()
		short, cancel := context.WithTimeout(ctx, 20*time.Millisecond)
		defer cancel()
		if err := p.Shutdown(short); !errors.Is(err, context.DeadlineExceeded) {
			t.Fatal(err)
		}
		if len(answers) != 0 {
			t.Fatal("it does not wait")
		}
		close(goes)
		within(t, "a shutdown", func() { shut() })
		for i := 0; i < 3; i++ {
			if err := <-answers; !errors.Is(err, wanted) {
				t.Error(err)
			}
		}
		// (it has ended, so no context matters)
		if err := p.Shutdown(ended()); !errors.Is(err, wanted) {
			t.Error(err)
		}
	}
}

// A shutdown whose context has ended brings nothing, tells so, and leaves no goroutine.
func TestAShutdownThatIsCancelledClosesAll(t *testing.T) {
	before := runtime.NumGoroutine()
	var shut, told int32
	for i := 0; i < 50; i++ {
		reader := NewPeriodicReader(ending{
			export:   func(ctx context.Context, _ kotskhin.Export) error { return ctx.Err() },
			shutdown: func(context.Context) error { atomic.AddInt32(&shut, 1); return nil },
			// (an export of an interval would be cancelled, too, and told beside the last one)
		}, WithInterval(time.Hour), WithOnFailed(func(error) { atomic.AddInt32(&told, 1) }))
		p, requests := counting(t, reader)
		requests.Add(ctx, 7)
		var why *ExportError
		for _, given := range []context.Context{ended(), ctx} {
			if err := p.Shutdown(given); !errors.As(err, &why) || !errors.Is(err, context.Canceled) {
				t.Fatal(err)
			}
			is(t, decoded(t, why.Unsent), "{} 7")
		}
		if _, err := p.Collect(); !errors.Is(err, kotskhin.ErrClosed) || reader.Failed() != 1 {
			t.Fatal(err, reader.Failed())
		}
	}
	until := time.Now().Add(time.Minute)
	for (runtime.NumGoroutine() > before || atomic.LoadInt32(&shut) != 50) && time.Now().Before(until) {
		time.Sleep(time.Millisecond)
	}
	if left := runtime.NumGoroutine() - before; left > 0 || shut != 50 || told != 50 {
		t.Fatal(left, shut, told)
	}
}

// So it does where an export of an interval goes on, which is cancelled.
func TestAShutdownThatIsCancelledEndsWhatGoesOn(t *testing.T) {
	came, left := make(chan struct{}, 1), make(chan error, 1)
	p, requests := counting(t, NewPeriodicReader(ExporterFunc(func(ctx context.Context, _ kotskhin.Export) error {
		came <- struct{}{}
		<-ctx.Done()
		left <- ctx.Err()
		return ctx.Err()
	}), WithInterval(time.Millisecond), WithOnFailed(func(error) {})))
	requests.Add(ctx, 7)
	<-came
	if err := p.Shutdown(ended()); !errors.Is(err, context.Canceled) {
		t.Fatal(err)
	}
	within(t, "an export", func() {
		if err := <-left; !errors.Is(err, context.Canceled) {
			t.Error(err)
		}
	})
}

// One reader's exporter that does not heed its context takes no time of another's, and none after the context's end, which comes once the
// other one has brought its export.
func TestAnExporterThatHeedsNoContext(t *testing.T) {
	goes := make(chan struct{})
	defer close(goes)
	for _, exporter := range []Exporter{
		ending{shutdown: func(context.Context) error { <-goes; return nil }},
		ExporterFunc(func(context.Context, kotskhin.Export) error { <-goes; return nil }),
	} {
		brought := ""
		short, cancel := context.WithCancel(ctx)
		defer cancel()
		hears := NewPeriodicReader(ExporterFunc(func(_ context.Context, export kotskhin.Export) error {
			brought = told(t, export, sum("requests"))
			cancel()
			return nil
		}))
		hangs := NewPeriodicReader(exporter, WithOnFailed(func(error) {}))
		p := newProvider(t, WithReader(hangs), WithReader(hears))
		requests, _ := p.Meter("app").Int64Counter("requests")
		requests.Add(ctx, 7)
		within(t, "a shutdown", func() {
			if err := p.Shutdown(short); !errors.Is(err, context.Canceled) {
				t.Error(err)
			}
		})
		is(t, brought, "{} 7")
	}
}

// A hook that flushes, or shuts down, is refused so by name, and the reader goes on; so is an exporter.
func TestHooksMayNotFlush(t *testing.T) {
	var exports int32
	var lock sync.Mutex
	var answers []error
	var p *MeterProvider
	again := func() {
		lock.Lock()
		defer lock.Unlock()
		answers = append(answers, p.ForceFlush(ctx), p.Shutdown(ctx))
	}
	reader := NewPeriodicReader(ExporterFunc(func(context.Context, kotskhin.Export) error {
		again()
		if atomic.AddInt32(&exports, 1)%2 == 0 {
			return errors.New("no route")
		}
		return nil
	}), WithInterval(time.Millisecond), WithOnFailed(func(error) { again() }))
	p = newProvider(t, WithReader(reader), WithOnRefused(func(Refusal) { again() }))
	requests, _ := p.Meter("app").Int64Counter("requests")
	requests.Add(ctx, 7)
	within(t, "a hook", func() {
		for atomic.LoadInt32(&exports) < 10 {
			requests.Add(ctx, -1)
			time.Sleep(time.Millisecond)
		}
		for p.ForceFlush(ctx) == nil {
		}
		p.Shutdown(ctx)
	})
	// (a hook of what failed before may still be called)
	lock.Lock()
	defer lock.Unlock()
	for _, err := range answers {
		if !errors.Is(err, ErrReentered) {
			t.Fatal(err)
		}
	}
	if _, err := p.Collect(); !errors.Is(err, kotskhin.ErrClosed) || len(answers) < 20 {
		t.Fatal(err, len(answers))
	}
}

// An exporter may flush another provider, and a goroutine of a hook's its own.
func TestWhatAHookMayFlush(t *testing.T) {
	behind, orders := counting(t, NewPeriodicReader(ending{}))
	orders.Add(ctx, 1)
	flushed := make(chan error, 2)
	var p *MeterProvider
	reader := NewPeriodicReader(ExporterFunc(func(context.Context, kotskhin.Export) error {
		flushed <- behind.ForceFlush(ctx)
		return errors.New("no route")
	}), WithOnFailed(func(error) { go func() { flushed <- p.Shutdown(ended()) }() }))
	p, requests := counting(t, reader)
	requests.Add(ctx, 7)
	within(t, "a flush", func() {
		if err := p.ForceFlush(ctx); err == nil || <-flushed != nil || !errors.Is(<-flushed, context.Canceled) {
			t.Error(err)
		}
	})
}

// A panic of the exporter as it ends is told, whether the provider started or not, and the others of several end all the same.
func TestAnExporterThatPanicsAtItsEnd(t *testing.T) {
	isEnded := false
	panics := ending{shutdown: func(context.Context) error { panic("at the end") }}
	ends := ending{shutdown: func(context.Context) error { isEnded = true; return nil }}
	for _, exporter := range []Exporter{panics, FirstOf(panics, ends)} {
		for _, isStarted := range []bool{false, true} {
			p, requests := counting(t, NewPeriodicReader(exporter))
			if isStarted {
				requests.Add(ctx, 1)
			}
			if err := p.Shutdown(ctx); err == nil || !strings.Contains(err.Error(), "at the end") {
				t.Fatal(err)
			}
		}
	}
	if !isEnded {
		t.Fatal("the second one does not end")
	}
}

// What is refused to a hook of refusals is counted, and logged once: the hook is not called by itself.
func TestAHookThatIsRefused(t *testing.T) {
	var lines strings.Builder
	log.SetOutput(&lines)
	defer log.SetOutput(os.Stderr)
	var late, requests Int64Counter
	calls := 0
	p := newProvider(t, WithHeldLimit(0), WithOnRefused(func(Refusal) {
		calls++
		late.Add(ctx, 1)
		requests.Add(ctx, -2)
	}))
	requests, _ = p.Meter("app").Int64Counter("requests")
	requests.Add(ctx, 1)
	late, _ = p.Meter("app").Int64Counter("late")
	for turn := uint64(1); turn < 3; turn++ {
		requests.Add(ctx, -1)
		if calls != int(turn) || p.Refused() != 3*turn {
			t.Fatal(calls, p.Refused())
		}
	}
	if said := lines.String(); strings.Count(said, "\n") != 2 || !strings.Contains(said, `a recording of -2 by "requests"`) {
		t.Fatal(said)
	}
}

// So is what is refused to a log that records, which has the log's lock.
func TestALogThatIsRefused(t *testing.T) {
	p := newProvider(t, WithHeldLimit(0))
	requests, _ := p.Meter("app").Int64Counter("requests")
	orders, _ := p.Meter("app").Int64Counter("orders")
	log.SetOutput(writing(func() { requests.Add(ctx, -1) }))
	defer log.SetOutput(os.Stderr)
	within(t, "a log", func() { orders.Add(ctx, -1); orders.Add(ctx, -1) })
	if p.Refused() != 3 {
		t.Fatal(p.Refused())
	}
}

type writing func()

func (w writing) Write(line []byte) (int, error) {
	w()
	return len(line), nil
}

// A hook may collect, whatever called it.
func TestAHookMayCollect(t *testing.T) {
	var p *MeterProvider
	var collected []string
	p = newProvider(t, WithCardinalityLimit(1), WithOnRefused(func(Refusal) { collected = append(collected, total(t, p)) }))
	requests, _ := p.Meter("app").Int64Counter("requests")
	requests.Add(ctx, 1)
	within(t, "a hook", func() {
		requests.Add(ctx, -1)
		total(t, p)
		requests.Add(ctx, 1, WithAttributes(kindOf("a")))
		total(t, p)
	})
	is(t, strings.Join(collected, " | "), "{} 1 | {} 1; {otel.metric.overflow=1true} 1")
}

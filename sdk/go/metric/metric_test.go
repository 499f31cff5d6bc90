package metric

import (
	"context"
	"errors"
	"fmt"
	"log"
	"math"
	"os"
	"strings"
	"sync"
	"testing"
	"time"

	kotskhin "kotskhin.example/sdk/go"
	"kotskhin.example/sdk/go/attribute"
)

var ctx = context.Background()

type refusals struct {
	lock sync.Mutex
	list []Refusal
}

func (r *refusals) add(refusal Refusal) {
	r.lock.Lock()
	defer r.lock.Unlock()
	r.list = append(r.list, refusal)
}

func newProvider(t testing.TB, options ...Option) *MeterProvider {
	t.Helper()
	p, err := NewMeterProvider(append([]Option{WithResource(attribute.String(ServiceName, "shop"))}, options...)...)
	if err != nil {
		t.Fatal(err)
	}
	return p
}

// told is what an export comes to: of each row its attributes and its total.
func told(t testing.TB, export kotskhin.Export, ask kotskhin.Ask) string {
	t.Helper()
	gateway, err := kotskhin.OpenGateway(1)
	if err == nil {
		_, err = gateway.Take(export)
	}
	var rows kotskhin.Rows
	if err == nil {
		rows, err = gateway.Rows(ask)
	}
	all, failed := rows.All()
	if err != nil || failed != nil {
		t.Fatal(err, failed)
	}
	var said []string
	for _, row := range all {
		var pairs []string
		for _, pair := range row.Attributes {
			pairs = append(pairs, fmt.Sprintf("%s=%v%s", pair.Key, pair.Value.Type(), pair.Value.Emit()))
		}
		total := fmt.Sprint(row.Total)
		if row.Newest != nil {
			total = fmt.Sprint(row.Newest.Value)
		}
		said = append(said, "{"+strings.Join(pairs, ",")+"} "+total)
	}
	return strings.Join(said, "; ")
}

func sum(name string) kotskhin.Ask {
	ask, err := kotskhin.AskSum("app", name, "", true)
	if err != nil {
		panic(err)
	}
	return ask
}

func total(t testing.TB, p *MeterProvider) string {
	t.Helper()
	export, err := p.Collect()
	if err != nil {
		t.Fatal(err)
	}
	defer export.Close()
	return told(t, export, sum("requests"))
}

func is(t testing.TB, said, wanted string) {
	t.Helper()
	if said != wanted {
		t.Fatalf("%s, not %s", said, wanted)
	}
}

func TestEachKindRecords(t *testing.T) {
	p := newProvider(t)
	meter := p.Meter("app")
	requests, _ := meter.Int64Counter("requests", WithDescription("of all"))
	open, _ := meter.Int64UpDownCounter("open")
	depth, _ := meter.Int64Gauge("depth")
	size, err := meter.Int64Histogram("size", WithUnit("By"), WithExplicitBucketBoundaries(10, 100))
	if err != nil {
		t.Fatal(err)
	}
	for value := int64(1); value <= 3; value++ {
		requests.Add(ctx, value, WithAttributes(attribute.String("route", "/")))
		open.Add(ctx, -value)
		depth.Record(ctx, value-5)
		size.Record(ctx, value*50)
	}
	export, err := p.Collect()
	if err != nil {
		t.Fatal(err)
	}
	opened, _ := kotskhin.AskSum("app", "open", "", false)
	gauge, _ := kotskhin.AskGauge("app", "depth", "")
	sizes, _ := kotskhin.AskHistogram("app", "size", "By", 10, 100)
	is(t, told(t, export, sum("requests")), "{route=3/} 6")
	is(t, told(t, export, opened), "{} -6")
	is(t, told(t, export, gauge), "{} -2")
	is(t, told(t, export, sizes), "{} 300")
	if p.Refused() != 0 {
		t.Fatal(p.Refused())
	}
}

// A truth, a whole number and a text are three values; the order of keys is none.
func TestValuesOfAttributesAreToldApart(t *testing.T) {
	p := newProvider(t)
	requests, _ := p.Meter("app").Int64Counter("requests")
	set := attribute.NewSet(attribute.Int("b", 2), attribute.Int("a", 1))
	values := []attribute.KeyValue{
		attribute.Bool("v", true), attribute.Int("v", 1), attribute.String("v", "1"), attribute.Bool("v", false), attribute.Int("v", 0),
	}
	for turn := 0; turn < 3; turn++ {
		for _, pair := range values {
			requests.Add(ctx, 1, WithAttributes(pair))
		}
		requests.Add(ctx, 10, WithAttributes(attribute.Int("a", 1), attribute.Int("b", 2)))
		requests.Add(ctx, 10, WithAttributes(attribute.Int("b", 2)), WithAttributes(attribute.Int("a", 1)))
		requests.Add(ctx, 100, WithAttributeSet(set))
		requests.Add(ctx, 1000)
		requests.Add(ctx, 1000, WithAttributes())
	}
	is(t, total(t, p), "{} 6000; {a=21,b=22} 360; {v=31} 3; {v=1false} 3; {v=1true} 3; {v=20} 3; {v=21} 3")
}

func TestWhatIsRefusedIsCountedAndTold(t *testing.T) {
	var refused refusals
	p := newProvider(t, WithOnRefused(refused.add))
	requests, _ := p.Meter("app").Int64Counter("requests")
	wrong := []struct {
		value int64
		pair  attribute.KeyValue
		err   error
	}{
		{-1, attribute.Int("a", 1), kotskhin.ErrNegative},
		{1, attribute.Int("", 1), kotskhin.ErrEmptyKey},
		{1, attribute.String("a", "\xff"), kotskhin.ErrNotText},
		{1, attribute.KeyValue{Key: "a"}, kotskhin.ErrInvalidValue},
	}
	for _, test := range wrong {
		requests.Add(ctx, test.value, WithAttributes(test.pair))
		if last := refused.list[len(refused.list)-1]; !errors.Is(last, test.err) || last.Value != test.value || last.Instrument != "requests" {
			t.Fatal(last)
		}
	}
	requests.Add(ctx, 1)
	requests.Add(ctx, math.MaxInt64)
	requests.Add(ctx, -5)
	is(t, total(t, p), "{} 1")
	// (they may lie in two shards, which have no order)
	last := map[int64]bool{}
	for _, refusal := range refused.list[4:] {
		last[refusal.Value] = errors.Is(refusal, map[int64]kotskhin.Code{math.MaxInt64: kotskhin.ErrOverflow, -5: kotskhin.ErrNegative}[refusal.Value])
	}
	if p.Refused() != 6 || !last[math.MaxInt64] || !last[-5] {
		t.Fatal(refused.list)
	}
	if err := p.Shutdown(ctx); err != nil {
		t.Fatal(err)
	}
	requests.Add(ctx, 1)
	if _, err := p.Collect(); !errors.Is(refused.list[6], kotskhin.ErrClosed) || !errors.Is(err, kotskhin.ErrClosed) {
		t.Fatal(refused.list, err)
	}
}

func TestInstrumentsAreDeclaredBeforeTheStart(t *testing.T) {
	var refused refusals
	p := newProvider(t, WithOnRefused(refused.add))
	meter := p.Meter("app")
	one, _ := meter.Int64Counter("requests")
	if again, err := meter.Int64Counter("Requests"); err != nil || again != one {
		t.Fatal(err)
	}
	if _, err := p.Collect(); !errors.Is(err, kotskhin.ErrClosed) {
		t.Fatal(err)
	}
	one.Add(ctx, 1)
	if again, err := meter.Int64Counter("requests"); err != nil || again != one {
		t.Fatal(err)
	}
	late, err := meter.Int64Counter("orders")
	says := fmt.Sprint(err)
	if !errors.Is(err, ErrStarted) || !strings.Contains(says, `"orders" of "app" is declared at `) || strings.Count(says, "_test.go:") != 2 {
		t.Fatal(err)
	}
	late.Add(ctx, 1)
	if len(refused.list) != 1 || !errors.Is(refused.list[0], ErrStarted) {
		t.Fatal(refused.list)
	}
	Int64Counter{}.Add(ctx, 1)
}

func TestWhatIsWrongIsRefusedAtOnce(t *testing.T) {
	meter := newProvider(t).Meter("app")
	_, name := meter.Int64Counter("9 lives")
	_, unit := meter.Int64Counter("fine", WithUnit("µ"))
	_, bounds := meter.Int64Histogram("size", WithExplicitBucketBoundaries(2, 1))
	_, limit := NewMeterProvider(WithCardinalityLimit(0))
	_, service := NewMeterProvider(WithResource(attribute.String(ServiceName, "\xff")))
	for code, err := range map[kotskhin.Code]error{
		kotskhin.ErrBadName: name, kotskhin.ErrBadUnit: unit, kotskhin.ErrBadBounds: bounds,
		kotskhin.ErrBadLimit: limit, kotskhin.ErrNotText: service,
	} {
		if !errors.Is(err, code) {
			t.Error(code, err)
		}
	}
	for _, option := range []Option{
		WithView(kotskhin.View{Name: "req*"}), WithResource(attribute.String("host.name", "h")), WithHeldLimit(-1),
		WithResource(attribute.String(ServiceInstanceID, "5")),
	} {
		if _, err := NewMeterProvider(option); err == nil {
			t.Error("not refused")
		}
	}
	uuid := "01234567-89ab-cdef-fedc-ba9876543210"
	is(t, newProvider(t, WithResource(attribute.String(ServiceInstanceID, uuid))).Instance().String(), uuid)
}

// Recordings of a meter of that scope are refused and told, and those of the others are counted.
func TestNoMeterHasTheScopeOfTombstones(t *testing.T) {
	var refused refusals
	p := newProvider(t, WithOnRefused(refused.add))
	requests, _ := p.Meter("app").Int64Counter("requests")
	adopted, err := p.Meter("kotskhin.archive").Int64Gauge("adopted", WithUnit("ns"))
	why := kotskhin.Refused{}
	if !errors.As(err, &why) || why.Code != kotskhin.ErrReservedScope || why.Place != 0 {
		t.Fatal(err)
	}
	adopted.Record(ctx, 200, WithAttributes(attribute.String("service", "shop")))
	requests.Add(ctx, 3)
	is(t, total(t, p), "{} 3")
	if len(refused.list) != 1 || p.Refused() != 1 || !errors.Is(refused.list[0], kotskhin.ErrReservedScope) {
		t.Fatal(refused.list)
	}
}

func TestViewsAndAdvice(t *testing.T) {
	histogram := kotskhin.Histogram
	view := kotskhin.View{Name: "size", Kind: &histogram, Rename: "size.by.route", Keep: []string{"route"}, Bounds: []int64{10}}
	p := newProvider(t, WithView(view, kotskhin.View{Name: "gone", Aggregation: kotskhin.Drop}))
	size, _ := p.Meter("app").Int64Histogram("size", WithExplicitBucketBoundaries(1, 2, 3))
	gone, _ := p.Meter("app").Int64Counter("gone")
	gone.Add(ctx, 1)
	size.Record(ctx, 5, WithAttributes(attribute.String("route", "/"), attribute.Int("status", 200)))
	export, err := p.Collect()
	if err != nil {
		t.Fatal(err)
	}
	ask, _ := kotskhin.AskHistogram("app", "size.by.route", "", 10)
	is(t, told(t, export, ask), "{route=3/} 5")
}

type recording struct{ counter *Int64Counter }

func (r recording) Write(line []byte) (int, error) {
	r.counter.Add(ctx, 1)
	return len(line), nil
}

func TestWhatIsLoggedMayBeRecorded(t *testing.T) {
	p := newProvider(t, WithView(kotskhin.View{Name: "absent"}))
	requests, _ := p.Meter("app").Int64Counter("requests")
	log.SetOutput(recording{&requests})
	defer log.SetOutput(os.Stderr)
	requests.Add(ctx, -1)
	requests.Add(ctx, -1)
	is(t, total(t, p), "{} 2")
}

func TestSetsBeyondThoseThatAreHeld(t *testing.T) {
	p := newProvider(t, WithHeldLimit(10))
	requests, _ := p.Meter("app").Int64Counter("requests")
	for turn := 0; turn < 3; turn++ {
		for n := 0; n < 100; n++ {
			requests.Add(ctx, 1, WithAttributes(attribute.Int("n", n)))
		}
	}
	if said := total(t, p); strings.Count(said, "} 3") != 100 {
		t.Fatal(said)
	}
	if held := len(p.running.Load().(*engine).numbers); held != 10 {
		t.Fatal(held)
	}
	small := newProvider(t, WithCardinalityLimit(1))
	requests, _ = small.Meter("app").Int64Counter("requests")
	for n := 0; n < 3; n++ {
		requests.Add(ctx, 1, WithAttributes(attribute.Int("n", n)))
	}
	is(t, total(t, small), "{n=20} 1; {otel.metric.overflow=1true} 2")
}

// Goroutines record while a reader collects: totals are exact, and so is what is refused.
func TestTotalsAreExact(t *testing.T) {
	var times []uint64
	reader := NewPeriodicReader(ExporterFunc(func(_ context.Context, export kotskhin.Export) error {
		head, err := export.Head()
		times = append(times, head.Time)
		return err
	}), WithInterval(time.Millisecond))
	p := newProvider(t, WithReader(reader), WithHeldLimit(30), WithOnRefused(func(Refusal) {}))
	meter := p.Meter("app")
	requests, _ := meter.Int64Counter("requests")
	open, _ := meter.Int64UpDownCounter("open")
	var group sync.WaitGroup
	const goroutines, each = 8, 5000
	for i := 0; i < goroutines; i++ {
		group.Add(1)
		go func(i int) {
			defer group.Done()
			for turn := 0; turn < each; turn++ {
				requests.Add(ctx, 1)
				requests.Add(ctx, 1, WithAttributes(attribute.Int("turn", turn%50)))
				requests.Add(ctx, -1)
				open.Add(ctx, int64(1-2*(turn%2)), WithAttributes(attribute.Int("goroutine", i)))
			}
		}(i)
	}
	group.Wait()
	said := total(t, p)
	whole, part := fmt.Sprintf("{} %d; ", goroutines*each), fmt.Sprintf("} %d", goroutines*each/50)
	if !strings.HasPrefix(said, whole) || strings.Count(said, part) != 50 {
		t.Fatal(said)
	}
	if err := p.Shutdown(ctx); err != nil || p.Refused() != goroutines*each {
		t.Fatal(err, p.Refused())
	}
	for i := 1; i < len(times); i++ {
		if times[i] <= times[i-1] {
			t.Fatal(times)
		}
	}
}

// What is recorded while the provider shuts down is in the last export, or refused.
func TestNothingIsLostAtTheEnd(t *testing.T) {
	for round := 0; round < 20; round++ {
		var last string
		reader := NewPeriodicReader(ExporterFunc(func(_ context.Context, export kotskhin.Export) error {
			last = told(t, export, sum("requests"))
			return nil
		}))
		p := newProvider(t, WithReader(reader), WithOnRefused(func(Refusal) {}))
		requests, _ := p.Meter("app").Int64Counter("requests")
		requests.Add(ctx, 1)
		var group sync.WaitGroup
		const goroutines, each = 4, 2000
		for i := 0; i < goroutines; i++ {
			group.Add(1)
			go func() {
				defer group.Done()
				for turn := 0; turn < each; turn++ {
					requests.Add(ctx, 1)
				}
			}()
		}
		if err := p.Shutdown(ctx); err != nil {
			t.Fatal(err)
		}
		group.Wait()
		is(t, last, fmt.Sprintf("{} %d", 1+goroutines*each-p.Refused()))
	}
}

func BenchmarkAdd(b *testing.B) {
	p := newProvider(b)
	requests, _ := p.Meter("app").Int64Counter("requests")
	set := attribute.NewSet(attribute.String("http.route", "/orders"), attribute.Int("status", 200))
	for name, options := range map[string][]MeasurementOption{"none": nil, "set": {WithAttributeSet(set)}} {
		b.Run(name, func(b *testing.B) {
			b.ReportAllocs()
			for i := 0; i < b.N; i++ {
				requests.Add(ctx, 1, options...)
			}
		})
	}
	b.Run("attributes", func(b *testing.B) {
		b.ReportAllocs()
		for i := 0; i < b.N; i++ {
			requests.Add(ctx, 1, WithAttributes(attribute.String("http.route", "/orders"), attribute.Int("status", 200)))
		}
	})
	b.Run("parallel", func(b *testing.B) {
		b.RunParallel(func(pb *testing.PB) {
			for pb.Next() {
				requests.Add(ctx, 1, WithAttributeSet(set))
			}
		})
	})
}

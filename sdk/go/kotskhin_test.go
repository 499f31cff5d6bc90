package kotskhin

import (
	"errors"
	"io"
	"math"
	"reflect"
	"runtime"
	"runtime/debug"
	"strings"
	"sync"
	"sync/atomic"
	"testing"
	"time"

	"kotskhin.example/sdk/go/attribute"
)

func must[T any](t *testing.T) func(made T, err error) T {
	return func(made T, err error) T {
		t.Helper()
		if err != nil {
			t.Fatal(err)
		}
		return made
	}
}

// refused checks that a call was refused with a code, and with a place where one is told.
func refused(t *testing.T, err error, code Code, place uint64) {
	t.Helper()
	var why Refused
	if !errors.As(err, &why) || why != (Refused{Code: code, Place: place}) || !errors.Is(err, code) {
		t.Fatalf("%v, not %v at %d", err, code, place)
	}
}

func newWriter(t *testing.T, instance uint64) Writer {
	t.Helper()
	plan := must[Plan](t)(NewPlan(Instrument{Scope: "app", Name: "requests", Unit: "1", Kind: Counter}))
	return must[Writer](t)(StartWriter(plan, "shop", Instance{Low: instance}, 100))
}

// total is the last word of the table's last line.
func total(t *testing.T, g Gateway) string {
	t.Helper()
	words := strings.Fields(must[string](t)(g.Sum("app", "requests", "1", true)))
	return words[len(words)-1]
}

func TestRefusalsChangeNothing(t *testing.T) {
	w := newWriter(t, 1)
	none := must[Attributes](t)(NewAttributes())
	number := must[int](t)(w.Hold(0, none))
	if err := w.MeasureHeld(number, 7); err != nil {
		t.Fatal(err)
	}
	refused(t, w.MeasureHeld(number, -1), ErrNegative, 0)
	g := must[Gateway](t)(OpenGateway(1))
	_, err := g.Newest("shop", Instance{Low: 1}, 100)
	refused(t, err, ErrNoPoint, 0)
	must[Taking](t)(g.Take(must[Export](t)(w.Shutdown(200))))
	refused(t, w.Measure(0, none, 1), ErrClosed, 0)
	refused(t, w.Restart(100), ErrStartNotAfter, 100)
	if err := w.Restart(101); err != nil {
		t.Fatal(err)
	}
	if time := must[uint64](t)(g.Newest("shop", Instance{Low: 1}, 100)); time != 200 || total(t, g) != "7" {
		t.Fatalf("time %d, total %s", time, total(t, g))
	}
}

func TestExportsGoAsBytes(t *testing.T) {
	w := newWriter(t, 1)
	if err := w.Measure(0, must[Attributes](t)(NewAttributes(attribute.String("route", "/"))), 7); err != nil {
		t.Fatal(err)
	}
	bytes := must[[]byte](t)(must[Export](t)(w.Collect(200)).Encode())
	g := must[Gateway](t)(OpenGateway(1))
	must[Taking](t)(g.Take(must[Export](t)(DecodeExport(bytes))))
	if total(t, g) != "7" {
		t.Fatal(total(t, g))
	}
	_, err := DecodeExport(nil)
	refused(t, err, ErrTruncated, 0)
}

func TestGatewaysTellEachOther(t *testing.T) {
	w := newWriter(t, 1)
	if err := w.Measure(0, must[Attributes](t)(NewAttributes()), 7); err != nil {
		t.Fatal(err)
	}
	one, other := must[Gateway](t)(OpenGateway(1)), must[Gateway](t)(OpenGateway(2))
	must[Taking](t)(one.Take(must[Export](t)(w.Collect(200))))
	bytes := must[[]byte](t)(must[Message](t)(one.Send(2)).Encode())
	_, err := DecodeMessage(nil)
	refused(t, err, ErrTruncated, 0)
	answer, answered, err := other.Hand(must[Message](t)(DecodeMessage(bytes)))
	if err != nil || !answered {
		t.Fatal(answered, err)
	}
	if _, answered, err = one.Hand(answer); err != nil || answered {
		t.Fatal(answered, err)
	}
	if _, _, points, err := must[Message](t)(one.Send(2)).Envelope(); err != nil || points != 0 {
		t.Fatal(points, err)
	}
	if total(t, other) != "7" {
		t.Fatal(total(t, other))
	}
}

// Goroutines record by seats of their own while one collects, and finalizers run.
func TestGoroutinesHaveSeats(t *testing.T) {
	first := must[Seat](t)(newWriter(t, 1).Share())
	untilFree := func(call func() error) error {
		for {
			if err := call(); !errors.Is(err, ErrBusy) {
				return err
			}
			runtime.Gosched()
		}
	}
	var hands sync.WaitGroup
	for i := 0; i < 4; i++ {
		seat := must[Seat](t)(first.Split())
		hands.Add(1)
		go func() {
			defer hands.Done()
			for i := 0; i < 1000; i++ {
				none, err := NewAttributes()
				if err == nil {
					err = untilFree(func() error { return seat.Measure(0, none, 1) })
				}
				if err != nil {
					t.Error(err)
				}
			}
		}()
	}
	g := must[Gateway](t)(OpenGateway(1))
	take := func(time uint64) {
		if err := untilFree(func() error {
			export, err := first.Collect(time)
			if err == nil {
				_, err = g.Take(export)
			}
			return err
		}); err != nil {
			t.Fatal(err)
		}
	}
	for time := uint64(200); time < 210; time++ {
		take(time)
		runtime.GC()
	}
	hands.Wait()
	take(300)
	if total(t, g) != "4000" {
		t.Fatal(total(t, g))
	}
}

// Each goroutine records by a recorder of its own, which the writer takes in.
func TestGoroutinesHaveRecorders(t *testing.T) {
	w := newWriter(t, 1)
	none := must[Attributes](t)(NewAttributes())
	number := must[int](t)(w.Hold(0, none))
	var hands sync.WaitGroup
	for i := 0; i < 4; i++ {
		recorder := must[Recorder](t)(NewRecorder(100))
		hands.Add(1)
		go func() {
			defer hands.Done()
			for i := 0; i < 1000; i++ {
				if err := recorder.MeasureHeld(number, 1); err != nil {
					t.Error(err)
				}
				if i%100 == 99 {
					if made, err := w.TakeIn(recorder, math.MaxInt); err != nil || made != (Taken{Recorded: 100}) {
						t.Error(made, err)
					}
				}
			}
			if count, err := recorder.Len(); err != nil || count != 0 {
				t.Error(count, err)
			}
		}()
	}
	hands.Wait()
	runtime.GC()
	if again := must[int](t)(w.Hold(0, none)); again != number {
		t.Fatal(again, number)
	}
	g := must[Gateway](t)(OpenGateway(1))
	must[Taking](t)(g.Take(must[Export](t)(w.Collect(200))))
	if total(t, g) != "4000" {
		t.Fatal(total(t, g))
	}
}

// What is refused of a recorder is told, one by one; a writer takes it in, and a seat does.
func TestRecordingsAreTakenInOneByOne(t *testing.T) {
	w := newWriter(t, 1)
	none := must[Attributes](t)(NewAttributes())
	r := must[Recorder](t)(NewRecorder(3))
	for _, value := range []int64{3, -1, 4} {
		if err := r.Measure(0, none, value); err != nil {
			t.Fatal(err)
		}
	}
	refused(t, r.Measure(0, none, 1), ErrRecorderFull, 0)
	made := must[Taken](t)(w.TakeIn(r, 2))
	if made.Recorded != 1 || made.Refused != 1 || made.First != 1 || !errors.Is(made.Why, ErrNegative) {
		t.Fatal(made)
	}
	seat := must[Seat](t)(w.Share())
	if made := must[Taken](t)(seat.TakeIn(r, math.MaxInt)); made != (Taken{Recorded: 1}) {
		t.Fatal(made)
	}
	number := must[int](t)(seat.Hold(0, none))
	if err := seat.MeasureHeld(number, 1<<63-8); err != nil {
		t.Fatal(err)
	}
	refused(t, seat.MeasureHeld(number+1, 1), ErrNoHeld, 0)
	if err := r.MeasureHeld(number, 1); err != nil {
		t.Fatal(err)
	}
	made = must[Taken](t)(seat.TakeIn(r, math.MaxInt))
	refused(t, made.Why, ErrOverflow, 0)
	if err := r.Measure(0, none, 1); err != nil || r.Clear() != nil || must[int](t)(r.Len()) != 0 {
		t.Fatal(err)
	}
	closed := newWriter(t, 2)
	must[Export](t)(closed.Shutdown(200))
	_, err := closed.TakeIn(r, math.MaxInt)
	refused(t, err, ErrClosed, 0)
}

func TestRefusalsSayWhy(t *testing.T) {
	w := newWriter(t, 1)
	none := must[Attributes](t)(NewAttributes())
	_, twice := NewPlan(Instrument{Name: "requests", Unit: "1"}, Instrument{Name: "1", Unit: "1"})
	_, reserved := NewPlan(Instrument{Name: "requests"}, Instrument{Scope: "kotskhin.archive", Name: "adopted", Kind: Gauge})
	_, key := NewAttributes(attribute.String("a", "1"), attribute.String("", "2"))
	said := func(code Code) string { return code.Error() + ": " + codes[code].says }
	for says, err := range map[string]error{
		said(ErrNegative):                                     w.Measure(0, none, -1),
		said(ErrStartNotAfter) + " (start 100)":               w.Restart(100),
		said(ErrBadName) + " (instrument 1)":                  twice,
		said(ErrReservedScope) + " (instrument 1)":            reserved,
		said(ErrEmptyKey) + " (pair 1)":                       key,
		said(ErrSameStream) + " (instrument 2, instrument 3)": Refused{ErrSameStream, 2, 3},
		"kotskhin: code 9999":                                 Refused{Code: 9999},
		"kotskhin: CLOSED":                                    ErrClosed,
	} {
		if err == nil || err.Error() != says {
			t.Errorf("%v, not %s", err, says)
		}
	}
	if err := w.Measure(0, none, -1); errors.Is(err, ErrClosed) || errors.Is(err, errors.New("other")) {
		t.Error(err)
	}
}

// An attribute without a value would else be dropped, and its values would go to another set.
func TestAnAttributeWantsAValue(t *testing.T) {
	for _, pairs := range [][]attribute.KeyValue{{{Key: "route"}}, {attribute.Int("a", 1), {Key: "user"}}} {
		if _, err := NewAttributes(pairs...); !errors.Is(err, ErrInvalidValue) {
			t.Error(pairs, err)
		}
	}
}

// What no call made is refused, and no panic.
func TestZeroValuesAreRefused(t *testing.T) {
	w := newWriter(t, 1)
	none := must[Attributes](t)(NewAttributes())
	r := must[Recorder](t)(NewRecorder(10))
	g := must[Gateway](t)(OpenGateway(1))
	_, hold := w.Hold(0, Attributes{})
	_, start := StartWriter(Plan{}, "shop", Instance{Low: 1}, 100)
	_, share := Writer{}.Share()
	_, in := w.TakeIn(Recorder{}, 1)
	_, collect := Seat{}.Collect(200)
	_, take := g.Take(Export{})
	_, sum := Gateway{}.Sum("app", "requests", "1", true)
	_, send := Gateway{}.Send(1)
	_, bytes := Gateway{}.MergeBytes(nil)
	_, streams := Export{}.Streams()
	_, encode := Export{}.Encode()
	_, _, _, envelope := Message{}.Envelope()
	_, _, hand := Gateway{}.Hand(Message{})
	for i, err := range []error{
		w.Measure(0, Attributes{}, 1), r.Measure(0, Attributes{}, 1), Writer{}.Measure(0, none, 1), Recorder{}.MeasureHeld(0, 1),
		Writer{}.MeasureAll(nil, nil), hold, start, share, in, collect, take, sum, send, bytes, streams, encode, envelope, hand,
	} {
		if !errors.Is(err, ErrNothing) {
			t.Error(i, err)
		}
	}
}

func TestInstancesAreDrawnAnew(t *testing.T) {
	drawn := map[Instance]bool{}
	for i := 0; i < 8; i++ {
		instance, err := UniqueInstance()
		if err != nil {
			t.Fatal(err)
		}
		drawn[instance] = true
	}
	if len(drawn) != 8 {
		t.Fatal(drawn)
	}
	if uuid := (Instance{0x0123456789abcdef, 0xfedcba9876543210}).String(); uuid != "01234567-89ab-cdef-fedc-ba9876543210" {
		t.Fatal(uuid)
	}
}

// Goroutines read one set, one plan and one gateway, which nobody changes meanwhile.
func TestGoroutinesReadAtOnce(t *testing.T) {
	plan := must[Plan](t)(NewPlan(Instrument{Scope: "app", Name: "requests", Unit: "1", Kind: Counter}))
	route := must[Attributes](t)(NewAttributes(attribute.String("route", "/")))
	first := must[Writer](t)(StartWriter(plan, "shop", Instance{Low: 1}, 100))
	if err := first.Measure(0, route, 7); err != nil {
		t.Fatal(err)
	}
	gateway, export := must[Gateway](t)(OpenGateway(1)), must[Export](t)(first.Collect(200))
	must[Taking](t)(gateway.Take(export))
	table := must[string](t)(gateway.Sum("app", "requests", "1", true))
	var group sync.WaitGroup
	for i := 0; i < 4; i++ {
		group.Add(1)
		go func(instance uint64) {
			defer group.Done()
			writer, err := StartWriter(plan, "shop", Instance{Low: instance}, 100)
			number, held := writer.Hold(0, route)
			for i := 0; i < 1000 && err == nil && held == nil; i++ {
				if err = writer.Measure(0, route, 1); err == nil {
					err = writer.MeasureHeld(number, 1)
				}
			}
			told, asked := gateway.Sum("app", "requests", "1", true)
			if err != nil || held != nil || asked != nil || told != table {
				t.Error(err, held, asked, told)
			}
			own, _ := OpenGateway(2)
			if made, err := writer.Collect(300); err == nil {
				own.Take(made)
			}
			own.Take(export)
			if told, _ := own.Sum("app", "requests", "1", true); !strings.HasSuffix(told, "  2007\n") {
				t.Error(told)
			}
		}(uint64(i) + 2)
	}
	group.Wait()
}

// What is refused of a list is told by its place, and the others are recorded.
func TestListsAreRecorded(t *testing.T) {
	w := newWriter(t, 1)
	number := uint64(must[int](t)(w.Hold(0, must[Attributes](t)(NewAttributes()))))
	refused := map[int]Code{}
	tell := func(place int, why Refused) { refused[place] = why.Code }
	list := []Noted{{number, -1}, {number, 3}, {number + 1, 1}, {number, 4}, {number, math.MaxInt64}}
	err := w.MeasureAll(list, tell)
	if wanted := map[int]Code{0: ErrNegative, 2: ErrNoHeld, 4: ErrOverflow}; err != nil || !reflect.DeepEqual(refused, wanted) {
		t.Fatal(refused, err)
	}
	if err := w.MeasureAll(nil, tell); err != nil {
		t.Fatal(err)
	}
	g := must[Gateway](t)(OpenGateway(1))
	must[Taking](t)(g.Take(must[Export](t)(w.Collect(200))))
	if total(t, g) != "7" {
		t.Fatal(total(t, g))
	}
	w.Close()
	for _, closed := range [][]Noted{list, nil} {
		if err := w.MeasureAll(closed, tell); !errors.Is(err, ErrNothing) || len(refused) != 3 {
			t.Fatal(refused, err)
		}
	}
}

// What nobody closes is given up by finalizers.
func TestWhatIsForgottenIsGivenUp(t *testing.T) {
	w := newWriter(t, 1)
	for n := 0; n < 1000; n++ {
		if err := w.Measure(0, must[Attributes](t)(NewAttributes(attribute.Int("n", n))), 1); err != nil {
			t.Fatal(err)
		}
	}
	bytes := must[[]byte](t)(must[Export](t)(w.Collect(200)).Encode())
	before := 0
	for turn := 0; turn <= 400; turn++ {
		must[Export](t)(DecodeExport(bytes))
		if turn%50 == 0 {
			runtime.GC()
		}
		if turn == 100 {
			before = resident()
		}
	}
	if grown := resident() - before; grown > 64 {
		t.Fatalf("the process grew by %d MB", grown)
	}
}

// What nobody closes makes the collector run where C holds much for it, though Go's own memory makes it run never.
func TestWhatIsForgottenIsCollected(t *testing.T) {
	w := newWriter(t, 1)
	for n := 0; n < 1000; n++ {
		if err := w.Measure(0, must[Attributes](t)(NewAttributes(attribute.Int("n", n))), 1); err != nil {
			t.Fatal(err)
		}
	}
	export := must[Export](t)(w.Collect(200))
	bytes := must[[]byte](t)(export.Encode())
	gateway := must[Gateway](t)(OpenGateway(1))
	must[Taking](t)(gateway.Take(export))
	message := must[Message](t)(gateway.Send(2))
	encoded := must[[]byte](t)(message.Encode())
	ask := must[Ask](t)(AskStream(must[Streams](t)(gateway.Streams()), 0))
	runtime.GC()
	defer debug.SetGCPercent(debug.SetGCPercent(-1))
	defer atomic.StoreInt64(&inC.least, atomic.SwapInt64(&inC.least, 4<<20))
	inC.fall(0)
	for what, forget := range map[string]func(){
		"exports":  func() { must[Export](t)(DecodeExport(bytes)) },
		"gateways": func() { must[Taking](t)(must[Gateway](t)(OpenGateway(1)).Take(export)) },
		"messages": func() { must[Message](t)(DecodeMessage(encoded)) },
		"rows":     func() { must[Rows](t)(gateway.Rows(ask)) },
	} {
		before := resident()
		for turn := 0; turn < 500; turn++ {
			forget()
		}
		if grown := resident() - before; grown > 40 {
			t.Errorf("the process grew by %d MB of %s", grown, what)
		}
	}
	// (what is not forgotten is counted still, and nothing twice)
	live, until := 3*1000*int64(pointBytes), time.Now().Add(time.Minute)
	for atomic.LoadInt64(&inC.held) > live && time.Now().Before(until) {
		runtime.GC()
		time.Sleep(time.Millisecond)
	}
	if held := atomic.LoadInt64(&inC.held); held != live {
		t.Fatal(held, live)
	}
	for _, closer := range []io.Closer{export, message, gateway, export} {
		closer.Close()
	}
	if held := atomic.LoadInt64(&inC.held); held != 0 {
		t.Fatal(held)
	}
}

// What is closed is given up at once: no collection comes meanwhile, so no finalizer does.
func TestWhatIsClosedIsGivenUpAtOnce(t *testing.T) {
	w := newWriter(t, 1)
	for n := 0; n < 1000; n++ {
		if err := w.Measure(0, must[Attributes](t)(NewAttributes(attribute.Int("n", n))), 1); err != nil {
			t.Fatal(err)
		}
	}
	bytes := must[[]byte](t)(must[Export](t)(w.Collect(200)).Encode())
	runtime.GC()
	defer debug.SetGCPercent(debug.SetGCPercent(-1))
	before := resident()
	for turn := 0; turn < 200; turn++ {
		if err := must[Export](t)(DecodeExport(bytes)).Close(); err != nil {
			t.Fatal(err)
		}
	}
	if grown := resident() - before; grown > 16 {
		t.Fatalf("the process grew by %d MB", grown)
	}
}

// Two goroutines merge two gateways into each other, and compare them.
func TestGatewaysAreMergedIntoEachOther(t *testing.T) {
	gateways := []Gateway{must[Gateway](t)(OpenGateway(1)), must[Gateway](t)(OpenGateway(2))}
	export := must[Export](t)(newWriter(t, 1).Collect(200))
	var group sync.WaitGroup
	for i := range gateways {
		group.Add(1)
		go func(i int) {
			defer group.Done()
			for turn := 0; turn < 2000; turn++ {
				_, taken := gateways[i].Take(export)
				_, merged := gateways[i].Merge(gateways[1-i])
				_, same := gateways[i].Same(gateways[1-i])
				if taken != nil || merged != nil || same != nil {
					t.Error(taken, merged, same)
				}
			}
		}(i)
	}
	group.Wait()
}

// A writer that was shared has nothing: its seat has it.
func TestASharedWriterIsLeftEmpty(t *testing.T) {
	w := newWriter(t, 1)
	seat := must[Seat](t)(w.Share())
	none := must[Attributes](t)(NewAttributes())
	refused(t, w.Measure(0, none, 1), ErrNothing, 0)
	if err := seat.Measure(0, none, 1); err != nil {
		t.Fatal(err)
	}
}

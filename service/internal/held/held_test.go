package held

import (
	"errors"
	"fmt"
	"os"
	"strings"
	"sync"
	"testing"
	"time"

	kotskhin "kotskhin.example/sdk/go"
	"kotskhin.example/sdk/go/attribute"
)

func must[T any](t *testing.T) func(made T, err error) T {
	return func(made T, err error) T {
		t.Helper()
		if err != nil {
			t.Fatal(err)
		}
		return made
	}
}

// export is one of a writer, with so many points, of a counter of this name: each of them 1.
func export(t *testing.T, name string, instance uint64, points int, time uint64) kotskhin.Export {
	t.Helper()
	plan := must[kotskhin.Plan](t)(kotskhin.NewPlan(kotskhin.Instrument{Scope: "app", Name: name, Unit: "1", Kind: kotskhin.Counter}))
	writer := must[kotskhin.Writer](t)(kotskhin.StartWriter(plan, "shop", kotskhin.Instance{Low: instance}, 100))
	for n := 0; n < points; n++ {
		set := must[kotskhin.Attributes](t)(kotskhin.NewAttributes(attribute.Int("n", n)))
		if err := writer.Measure(0, set, 1); err != nil {
			t.Fatal(err)
		}
	}
	return must[kotskhin.Export](t)(writer.Collect(time))
}

func opened(t *testing.T, id uint32, limits Limits) *Held {
	t.Helper()
	return must[*Held](t)(New(must[kotskhin.Gateway](t)(kotskhin.OpenGateway(id)), limits))
}

func take(t *testing.T, h *Held, exports ...kotskhin.Export) error {
	t.Helper()
	brought := must[*Brought](t)(Bring(exports, nil))
	defer brought.Close()
	if err := h.Admit(brought); err != nil {
		return err
	}
	_, err := h.Take(brought)
	return err
}

func held(t *testing.T, h *Held) int {
	t.Helper()
	look := must[*Look](t)(h.Look())
	return look.Points
}

var wide = Limits{Points: 1000, Streams: 10}

func TestALookHasAllThatWasTaken(t *testing.T) {
	h := opened(t, 1, wide)
	old := must[*Look](t)(h.Look())
	if err := take(t, h, export(t, "requests", 1, 3, 200)); err != nil {
		t.Fatal(err)
	}
	look := must[*Look](t)(h.Look())
	if again := must[*Look](t)(h.Look()); again != look || look == old {
		t.Fatal("a look is made once, until something changes")
	}
	if err := take(t, h, export(t, "requests", 2, 4, 200), export(t, "others", 1, 2, 200)); err != nil {
		t.Fatal(err)
	}
	// (a page that is made later tells what came meanwhile, and that of a look is made once)
	page := must[string](t)(look.Prometheus())
	if strings.Count(page, "\nrequests_total{") != 4 || old.Points != 0 || look.Points != 3 {
		t.Fatal(page, old.Points, look.Points)
	}
	if err := take(t, h, export(t, "requests", 2, 4, 200), export(t, "others", 1, 2, 200)); err != nil || must[string](t)(look.Prometheus()) != page {
		t.Fatal(err)
	}
	if found := held(t, h); found != 9 {
		t.Fatal(found)
	}
	if points, streams := h.Counts(); points != 9 || streams != 2 {
		t.Fatal(points, streams)
	}
}

func TestAFullGatewayTakesWhatItHolds(t *testing.T) {
	h := opened(t, 1, Limits{Points: 10, Streams: 2})
	if err := take(t, h, export(t, "requests", 1, 10, 200)); err != nil {
		t.Fatal(err)
	}
	if err := take(t, h, export(t, "requests", 2, 1, 200)); !errors.Is(err, ErrFull) {
		t.Fatal(err)
	}
	if err := take(t, h, export(t, "requests", 1, 11, 300)); !errors.Is(err, ErrFull) {
		t.Fatal(err)
	}
	for time := uint64(300); time < 310; time++ {
		if err := take(t, h, export(t, "requests", 1, 10, time)); err != nil {
			t.Fatal(time, err)
		}
	}
	if found := held(t, h); found != 10 {
		t.Fatal(found)
	}
}

// Other points under a writer that is known are counted once they are taken, and then nothing more is.
func TestPointsThatComeUnseen(t *testing.T) {
	h := opened(t, 1, Limits{Points: 8, Streams: 100})
	refused := 0
	for _, name := range strings.Fields("a b c d e f g h") {
		if err := take(t, h, export(t, name, 1, 2, 200)); errors.Is(err, ErrFull) {
			refused++
		} else if err != nil {
			t.Fatal(err)
		}
	}
	if points, _ := h.Counts(); refused != 3 || points != 10 || held(t, h) != 10 {
		t.Fatal(refused, points, held(t, h))
	}
}

func TestStreamsAreBounded(t *testing.T) {
	h := opened(t, 1, Limits{Points: 100, Streams: 2})
	for _, name := range []string{"a", "b"} {
		if err := take(t, h, export(t, name, uint64(name[0]), 2, 200)); err != nil {
			t.Fatal(err)
		}
	}
	if err := take(t, h, export(t, "c", 7, 2, 200)); !errors.Is(err, ErrFull) || held(t, h) != 4 {
		t.Fatal(err, held(t, h))
	}
	if err := take(t, h, export(t, "a", 8, 2, 200)); err != nil {
		t.Fatal(err)
	}
}

// Of several exports all are taken, or none.
func TestSeveralAreTakenWhole(t *testing.T) {
	h := opened(t, 1, Limits{Points: 5, Streams: 2})
	if err := take(t, h, export(t, "a", 1, 3, 200), export(t, "a", 2, 3, 200)); !errors.Is(err, ErrFull) || held(t, h) != 0 {
		t.Fatal(err, held(t, h))
	}
}

func TestNodesTellEachOther(t *testing.T) {
	one, other := opened(t, 1, wide), opened(t, 2, wide)
	if err := take(t, one, export(t, "requests", 1, 3, 200)); err != nil {
		t.Fatal(err)
	}
	message := must[kotskhin.Message](t)(kotskhin.DecodeMessage(must[[]byte](t)(one.Tell(2))))
	answer := must[[]byte](t)(other.Hand(message))
	if err := one.TakeAnswer(answer); err != nil || held(t, other) != 3 {
		t.Fatal(err, held(t, other))
	}
	if again := must[[]byte](t)(one.Tell(2)); len(again) > 20 {
		t.Fatal("what is acknowledged is told again", again)
	}
	if string(must[[]byte](t)(one.Encode())) == string(must[[]byte](t)(other.Encode())) {
		t.Fatal("two have one id")
	}
	small := opened(t, 3, Limits{Points: 2, Streams: 1})
	to3 := must[kotskhin.Message](t)(kotskhin.DecodeMessage(must[[]byte](t)(one.Tell(3))))
	if _, err := small.Hand(to3); !errors.Is(err, ErrFull) || held(t, small) != 0 {
		t.Fatal(err)
	}
}

// A peer that does not answer has nothing kept for it, however often it is told, and by how many ids it was known.
func TestNothingGrowsForWhoIsAway(t *testing.T) {
	own := opened(t, 1, wide)
	if err := take(t, own, export(t, "requests", 1, 500, 200)); err != nil {
		t.Fatal(err)
	}
	told := func(times int, id func(turn int) uint32) {
		for turn := 0; turn < times; turn++ {
			if _, err := own.Tell(id(turn)); err != nil {
				t.Fatal(err)
			}
		}
	}
	one := func(int) uint32 { return 2 }
	first := must[[]byte](t)(own.Tell(2))
	told(200, one)
	before := resident(t)
	told(5000, one)
	if again := must[[]byte](t)(own.Tell(2)); len(again) != len(first) {
		t.Fatalf("a message has %d bytes, and %d once more", len(first), len(again))
	}
	told(2000, func(turn int) uint32 { return uint32(3 + turn) })
	if grown := resident(t) - before; grown > 16<<20 {
		t.Fatalf("it grew by %d bytes", grown)
	}
}

func resident(t *testing.T) int {
	t.Helper()
	var size, pages int
	if _, err := fmt.Sscan(string(must[[]byte](t)(os.ReadFile("/proc/self/statm"))), &size, &pages); err != nil {
		t.Fatal(err)
	}
	return pages * os.Getpagesize()
}

// Some take while others look.
func TestTakesBesideLooks(t *testing.T) {
	h := opened(t, 1, wide)
	var hands sync.WaitGroup
	for hand := uint64(0); hand < 4; hand++ {
		hands.Add(2)
		own := export(t, "requests", hand, 10, 200)
		go func() {
			defer hands.Done()
			for turn := 0; turn < 50; turn++ {
				brought, err := Bring([]kotskhin.Export{own}, nil)
				if err == nil {
					_, err = h.Take(brought)
				}
				if err != nil {
					t.Error(err)
				}
			}
		}()
		go func() {
			defer hands.Done()
			for turn := 0; turn < 50; turn++ {
				look, err := h.Look()
				if err != nil {
					t.Error(err)
					return
				}
				if _, err := look.OpenMetrics(); err != nil {
					t.Error(err)
				}
			}
		}()
	}
	hands.Wait()
	if found := held(t, h); found != 40 {
		t.Fatal(found)
	}
}

// archived has an archive adopt all that ended, and be forgotten.
func archived(t *testing.T, h *Held, length time.Duration) int {
	t.Helper()
	archive := must[kotskhin.Archive](t)(kotskhin.BeginArchive("shop", 1000))
	ended := h.ListEnded("shop", length, h.Now())
	if err := h.WithAlone(func(alone Alone) error {
		for _, one := range ended {
			if err := archive.Adopt(alone.Gateway, one.Service, one.Instance, one.Start); err != nil {
				return err
			}
		}
		return alone.Forget(must[kotskhin.Export](t)(archive.Export(1000)), ended)
	}); err != nil {
		t.Fatal(err)
	}
	return len(ended)
}

// What is forgotten makes room, of points and of streams.
func TestLimitsFallByWhatIsForgotten(t *testing.T) {
	h := opened(t, 1, Limits{Points: 10, Streams: 3})
	gauge := kotskhin.Instrument{Scope: "app", Name: "heat", Kind: kotskhin.Gauge}
	plan := must[kotskhin.Plan](t)(kotskhin.NewPlan(gauge))
	writer := must[kotskhin.Writer](t)(kotskhin.StartWriter(plan, "shop", kotskhin.Instance{Low: 1}, 100))
	if err := writer.Measure(0, must[kotskhin.Attributes](t)(kotskhin.NewAttributes()), 1); err != nil {
		t.Fatal(err)
	}
	first := must[kotskhin.Export](t)(writer.Collect(200))
	for _, export := range []kotskhin.Export{first, export(t, "requests", 2, 4, 200), export(t, "requests", 3, 4, 200)} {
		if err := take(t, h, export); err != nil {
			t.Fatal(err)
		}
	}
	if err := take(t, h, export(t, "requests", 4, 2, 200)); !errors.Is(err, ErrFull) {
		t.Fatal(err)
	}
	if count := archived(t, h, 0); count != 3 {
		t.Fatal(count)
	}
	if len(h.counts.of) != 0 {
		t.Fatal(h.counts.of)
	}
	// (four totals, three tombstones)
	if found := held(t, h); found != 7 {
		t.Fatal(found)
	}
	// (the gauge's stream is gone, and that of tombstones came)
	if points, streams := h.Counts(); points != 7 || streams != 2 {
		t.Fatal(points, streams)
	}
	if err := take(t, h, export(t, "others", 5, 3, 200)); err != nil {
		t.Fatal(err)
	}
	if len(h.counts.of) != 2 {
		t.Fatal(h.counts.of)
	}
}

// What is late takes no room, and makes no copy old.
func TestWhatIsLateIsNotKnown(t *testing.T) {
	h := opened(t, 1, wide)
	if err := take(t, h, export(t, "requests", 1, 5, 200), export(t, "requests", 2, 5, 200)); err != nil {
		t.Fatal(err)
	}
	archived(t, h, 0)
	before := h.Changes()
	if err := take(t, h, export(t, "requests", 1, 6, 300)); err != nil || h.Changes() != before || len(h.counts.of) != 0 {
		t.Fatal(err, h.Changes(), h.counts.of)
	}
	if err := take(t, h, export(t, "requests", 1, 6, 300), export(t, "requests", 3, 6, 300)); err != nil || len(h.counts.of) != 1 {
		t.Fatal(err, h.counts.of)
	}
	if found := held(t, h); found != 5+2+6 {
		t.Fatal(found)
	}
}

// What a peer forgot is known no more from the next look on.
func TestWhatAPeerForgotIsNotKnown(t *testing.T) {
	one, other := opened(t, 1, wide), opened(t, 2, wide)
	tell := func() {
		t.Helper()
		message := must[kotskhin.Message](t)(kotskhin.DecodeMessage(must[[]byte](t)(one.Tell(2))))
		if err := one.TakeAnswer(must[[]byte](t)(other.Hand(message))); err != nil {
			t.Fatal(err)
		}
	}
	if err := take(t, one, export(t, "requests", 1, 5, 200), export(t, "requests", 2, 5, 200)); err != nil {
		t.Fatal(err)
	}
	tell()
	archived(t, one, 0)
	tell()
	if found := held(t, other); found != 7 || len(other.counts.of) != 1 || len(other.ListEnded("shop", 0, other.Now())) != 1 {
		t.Fatal(found, other.counts.of)
	}
}

// adopt has an archive of its own adopt an instance, and be forgotten.
func adopt(t *testing.T, h *Held, archive, instance uint64) {
	t.Helper()
	made := must[kotskhin.Archive](t)(kotskhin.BeginArchive("shop", 1000))
	if err := h.WithAlone(func(alone Alone) error {
		if err := made.Adopt(alone.Gateway, "shop", kotskhin.Instance{Low: instance}, 100); err != nil {
			return err
		}
		return alone.Forget(must[kotskhin.Export](t)(made.Export(1000)), nil)
	}); err != nil {
		t.Fatal(err)
	}
}

// Two archives that adopt one incarnation, each at a gateway of its own, are told by both once they tell each other.
func TestTwoTombstonesOfOneIncarnation(t *testing.T) {
	one, other := opened(t, 1, wide), opened(t, 2, wide)
	var told []Doubled
	other.TellDoubled(func(found Doubled) { told = append(told, found) })
	for _, h := range []*Held{one, other} {
		if err := take(t, h, export(t, "requests", 1, 2, 200), export(t, "requests", 2, 2, 200)); err != nil {
			t.Fatal(err)
		}
	}
	for number, h := range []*Held{one, other} {
		adopt(t, h, uint64(number)+1, 2)
		if found := held(t, h); found != 2+2+1 || h.Doubled().Count != 0 {
			t.Fatal(found, h.Doubled())
		}
	}
	tell := func() {
		t.Helper()
		message := must[kotskhin.Message](t)(kotskhin.DecodeMessage(must[[]byte](t)(one.Tell(2))))
		if err := one.TakeAnswer(must[[]byte](t)(other.Hand(message))); err != nil {
			t.Fatal(err)
		}
		held(t, other)
	}
	tell()
	if err := take(t, one, export(t, "requests", 3, 2, 200)); err != nil {
		t.Fatal(err)
	}
	tell()
	wanted := "instance=00000000-0000-0000-0000-000000000002, service=shop, start=100"
	if len(told) != 1 || other.Doubled() != (Doubled{1, wanted}) || told[0] != other.Doubled() || one.Doubled().Count != 0 {
		t.Fatal(told, other.Doubled(), one.Doubled())
	}
	// (whoever asks later is told at once)
	other.TellDoubled(func(found Doubled) { told = append(told, found) })
	if len(told) != 2 {
		t.Fatal(told)
	}
}

// What comes while a look is made stays known, and so does when its newest time came.
func TestCountsBesideALook(t *testing.T) {
	c, now := newCounts(wide), time.Now()
	of := func(instance uint64, newest uint64, points int) []kotskhin.Incarnation {
		return []kotskhin.Incarnation{{Service: "shop", Instance: kotskhin.Instance{Low: instance}, Newest: newest, Points: points}}
	}
	stream := func(name string) []kotskhin.Stream { return []kotskhin.Stream{{Name: name}} }
	c.know(of(1, 200, 5), stream("a"), now)
	c.know(of(2, 200, 5), stream("b"), now)
	c.begin()
	c.know(of(3, 200, 5), stream("c"), now.Add(time.Minute))
	c.recount(of(1, 200, 3), stream("a"), now.Add(time.Hour))
	if len(c.of) != 2 || c.knownStreams() != 2 || c.grows(of(1, 300, 5)) != 2 || c.grows(of(3, 300, 5)) != 0 {
		t.Fatal(c.of, c.streams)
	}
	c.know(of(3, 300, 5), nil, now.Add(time.Hour))
	ended := c.endedOf("shop", time.Hour, now.Add(time.Hour))
	if len(ended) != 1 || ended[0] != of(1, 200, 3)[0] || len(c.endedOf("till", 0, now.Add(time.Hour))) != 0 {
		t.Fatal(ended)
	}
}

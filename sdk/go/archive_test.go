package kotskhin

import (
	"errors"
	"math"
	"strings"
	"sync"
	"testing"
)

// counted is the export of a worker that began at 100 and counted a value.
func counted(t *testing.T, instance uint64, value int64, time uint64) Export {
	t.Helper()
	w := newWriter(t, instance)
	if err := w.Measure(0, must[Attributes](t)(NewAttributes()), value); err != nil {
		t.Fatal(err)
	}
	return must[Export](t)(w.Collect(time))
}

// holding is a gateway that took exports.
func holding(t *testing.T, id uint32, exports ...Export) Gateway {
	t.Helper()
	g := must[Gateway](t)(OpenGateway(id))
	for _, export := range exports {
		taken(t, g, export, 1, false)
	}
	return g
}

// taken checks what a gateway tells of an export.
func taken(t *testing.T, g Gateway, export Export, wanted uint64, wantedLate bool) {
	t.Helper()
	if taking := must[Taking](t)(g.Take(export)); taking != (Taking{wanted, wantedLate}) {
		t.Fatal(taking)
	}
}

func begun(t *testing.T, limit int) Archive {
	t.Helper()
	return must[Archive](t)(beginArchive("shop", Instance{Low: 1000}, 1000, limit))
}

// shows checks how many points a gateway holds, and their total.
func shows(t *testing.T, g Gateway, points int, wanted string) {
	t.Helper()
	if _, found, err := g.Head(); err != nil || found != points || total(t, g) != wanted {
		t.Fatalf("%d points with the total %s, %v", found, total(t, g), err)
	}
}

func TestAGatewayForgetsWhatIsAdopted(t *testing.T) {
	g, a := holding(t, 1, counted(t, 1, 3, 200), counted(t, 2, 4, 200), counted(t, 3, 5, 200)), begun(t, 1)
	for instance := uint64(1); instance < 3; instance++ {
		if err := a.Adopt(g, "shop", Instance{Low: instance}, 100); err != nil {
			t.Fatal(err)
		}
	}
	shows(t, g, 3, "12")
	if start, adopted, err := a.Head(); err != nil || start != 1000 || adopted != 2 {
		t.Fatal(start, adopted, err)
	}
	export := must[Export](t)(a.Export(2000))
	taken(t, g, export, 3, false)
	// (a total, two tombstones, and the third worker's point)
	shows(t, g, 4, "12")
	taken(t, g, counted(t, 2, 40, 300), 0, true)
	taken(t, g, counted(t, 3, 5, 200), 0, false)
	shows(t, g, 4, "12")
	if err := a.Seal(3000); err != nil {
		t.Fatal(err)
	}
	if start, adopted, err := a.Head(); err != nil || start != 3000 || adopted != 0 {
		t.Fatal(start, adopted, err)
	}
	refused(t, a.Adopt(g, "shop", Instance{Low: 1}, 100), ErrAdopted, 0)
}

// What came late to one gateway is forgotten by each that hears of the tombstone.
func TestGatewaysTellEachOtherWhatIsAdopted(t *testing.T) {
	one, other, a := holding(t, 1, counted(t, 1, 3, 200)), holding(t, 2, counted(t, 1, 3, 200), counted(t, 2, 4, 200)), begun(t, 1)
	if err := a.Adopt(one, "shop", Instance{Low: 1}, 100); err != nil {
		t.Fatal(err)
	}
	taken(t, one, must[Export](t)(a.Export(2000)), 2, false)
	answer, isAnswered, err := other.Hand(must[Message](t)(one.Send(2)))
	if err != nil || !isAnswered {
		t.Fatal(isAnswered, err)
	}
	if _, isAnswered, err := one.Hand(answer); err != nil || isAnswered {
		t.Fatal(isAnswered, err)
	}
	shows(t, other, 3, "7")
	if _, _, points, err := must[Message](t)(one.Send(2)).Envelope(); err != nil || points != 0 {
		t.Fatal(points, err)
	}
	again := must[Gateway](t)(OpenGateway(3))
	for _, from := range []Gateway{other, holding(t, 4, counted(t, 1, 3, 200))} {
		must[uint64](t)(again.Merge(from))
	}
	shows(t, again, 3, "7")
	if id, _, err := again.Head(); err != nil || id != 3 {
		t.Fatal(id, err)
	}
}

func TestWhatAnArchiveRefuses(t *testing.T) {
	g, a := holding(t, 1, counted(t, 1, math.MaxInt64, 200), counted(t, 2, 1, 200)), begun(t, 1)
	first, second := Instance{Low: 1}, Instance{Low: 2}
	refused(t, a.Adopt(g, "till", first, 100), ErrOtherService, 0)
	refused(t, a.Adopt(g, "shop", Instance{Low: 1000}, 1000), ErrIsArchive, 0)
	refused(t, a.Adopt(g, "shop", Instance{Low: 3}, 100), ErrNoPoint, 0)
	refused(t, a.Adopt(g, "sho\xff", first, 100), ErrNotText, 0)
	refused(t, begun(t, 0).Adopt(g, "shop", first, 100), ErrSetLimit, 0)
	if err := a.Adopt(g, "shop", first, 100); err != nil {
		t.Fatal(err)
	}
	refused(t, a.Adopt(g, "shop", second, 100), ErrOutOfRange, 0)
	refused(t, a.Seal(1000), ErrStartNotLater, 0)
	refused(t, a.Seal(1001), ErrUnexported, 0)
	_, err := a.Export(1000)
	refused(t, err, ErrTimeNotLater, 0)
	if _, err := BeginArchive("shop", -1); !errors.Is(err, ErrRange) {
		t.Fatal(err)
	}
	for _, thing := range []interface{ Close() error }{g, a} {
		if err := thing.Close(); err != nil {
			t.Fatal(err)
		}
	}
	_, err = g.Take(counted(t, 1, 1, 300))
	refused(t, err, ErrNothing, 0)
	_, _, err = Archive{}.Head()
	refused(t, err, ErrNothing, 0)
}

// Goroutines ask a gateway while others have it take and an archive adopts of it.
func TestGoroutinesShareAGateway(t *testing.T) {
	var exports []Export
	for instance := uint64(1); instance <= 100; instance++ {
		exports = append(exports, counted(t, instance, 1, 200))
	}
	g, a := holding(t, 1, exports...), begun(t, 1)
	var group sync.WaitGroup
	group.Add(3)
	go func() {
		defer group.Done()
		for instance := uint64(1); instance <= 100; instance++ {
			if err := a.Adopt(g, "shop", Instance{Low: instance}, 100); err != nil {
				t.Error(err)
			}
		}
	}()
	go func() {
		defer group.Done()
		for _, export := range exports {
			if _, err := g.Take(export); err != nil {
				t.Error(err)
			}
		}
	}()
	go func() {
		defer group.Done()
		for turn := 0; turn < 100; turn++ {
			if told, err := g.Sum("app", "requests", "1", true); err != nil || !strings.HasSuffix(told, "  100\n") {
				t.Error(told, err)
			}
		}
	}()
	group.Wait()
	taken(t, g, must[Export](t)(a.Export(2000)), 101, false)
	shows(t, g, 101, "100")
}

// An archive begins before all workers did. So no metric that it adopted of an old plan hides one of a worker that lives.
func TestAnArchiveHidesNoMetric(t *testing.T) {
	sales := func(kind Kind, instance, start uint64) Export {
		plan := must[Plan](t)(NewPlan(Instrument{Scope: "app", Name: "sales", Kind: kind}))
		w := must[Writer](t)(StartWriter(plan, "shop", Instance{Low: instance}, start))
		if err := w.Measure(0, must[Attributes](t)(NewAttributes()), 7); err != nil {
			t.Fatal(err)
		}
		return must[Export](t)(w.Collect(start + 100))
	}
	g, a := holding(t, 1, sales(Counter, 1, 100), sales(UpDown, 2, 200)), must[Archive](t)(BeginArchive("shop", 10))
	if err := a.Adopt(g, "shop", Instance{Low: 1}, 100); err != nil {
		t.Fatal(err)
	}
	must[Taking](t)(g.Take(must[Export](t)(a.Export(400))))
	if start, _, err := a.Head(); err != nil || start != 1 {
		t.Fatal(start, err)
	}
	if page := must[string](t)(g.Prometheus()); !strings.Contains(page, "\n# TYPE sales gauge\n") && !strings.HasPrefix(page, "# TYPE sales gauge\n") {
		t.Fatal(page)
	}
}

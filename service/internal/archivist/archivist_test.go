package archivist

import (
	"bytes"
	"context"
	"encoding/json"
	"fmt"
	"net/http"
	"net/http/httptest"
	"strings"
	"sync"
	"testing"
	"time"

	kotskhin "kotskhin.example/sdk/go"
	"kotskhin.example/sdk/go/attribute"
	"kotskhin.example/service/internal/figures"
	"kotskhin.example/service/internal/gossip"
	"kotskhin.example/service/internal/held"
	"kotskhin.example/service/internal/logs"
	"kotskhin.example/service/internal/store"
)

func must[T any](t *testing.T) func(made T, err error) T {
	return func(made T, err error) T {
		t.Helper()
		if err != nil {
			t.Fatal(err)
		}
		return made
	}
}

// A trial is a gateway with an archivist, and a clock that goes on where it is told to.
type trial struct {
	t     *testing.T
	held  *held.Held
	by    *Archivist
	clock time.Time
	time  uint64
}

func begun(t *testing.T) *trial {
	t.Helper()
	gateway := must[kotskhin.Gateway](t)(kotskhin.OpenGateway(1))
	h := must[*held.Held](t)(held.New(gateway, held.Limits{Points: 100_000, Streams: 10}))
	made := &trial{t: t, held: h, clock: time.Now(), time: 200}
	h.Now = func() time.Time { return made.clock }
	made.by = &Archivist{Held: h, Gossip: &gossip.Gossip{Held: h}, Figures: figures.New(), Services: []string{"shop"}, After: time.Hour}
	made.by.Every = 10 * time.Hour
	return made
}

var requests = kotskhin.Instrument{Scope: "app", Name: "requests", Unit: "1", Kind: kotskhin.Counter}

// counted is the next collection of a writer that counted a value at so many sets.
func (r *trial) counted(instance uint64, points int, value int64) kotskhin.Export {
	return r.export(instance, 100, points, value)
}

// collected is the next collection of a writer that began at a time, and counted 1 at so many sets.
func (r *trial) collected(instance, start uint64, points int) kotskhin.Export {
	return r.export(instance, start, points, 1)
}

func (r *trial) export(instance, start uint64, points int, value int64) kotskhin.Export {
	r.t.Helper()
	plan := must[kotskhin.Plan](r.t)(kotskhin.NewPlan(requests))
	writer := must[kotskhin.Writer](r.t)(kotskhin.StartWriter(plan, "shop", kotskhin.Instance{Low: instance}, start))
	defer writer.Close()
	for n := 0; n < points; n++ {
		if err := writer.Measure(0, must[kotskhin.Attributes](r.t)(kotskhin.NewAttributes(attribute.Int("n", n))), value); err != nil {
			r.t.Fatal(err)
		}
	}
	r.time++
	return must[kotskhin.Export](r.t)(writer.Collect(r.time))
}

// take takes exports, and tells how many were late.
func (r *trial) take(exports ...kotskhin.Export) int {
	r.t.Helper()
	brought := must[*held.Brought](r.t)(held.Bring(exports, nil))
	defer brought.Close()
	return len(must[[]kotskhin.ExportHead](r.t)(r.held.Take(brought)))
}

// after lets time go by, and has the archivist look.
func (r *trial) after(length time.Duration) {
	r.clock = r.clock.Add(length)
	r.by.Turn(context.Background())
}

// shows checks how many points are held, and what all requests come to.
func (r *trial) shows(points, total int) {
	r.t.Helper()
	look := must[*held.Look](r.t)(r.held.Look())
	ask := must[kotskhin.Ask](r.t)(kotskhin.AskSum("app", "requests", "1", true))
	if err := ask.Keep(); err != nil {
		r.t.Fatal(err)
	}
	table := must[string](r.t)(look.Gateway().Table(ask))
	if look.Points != points || !strings.HasSuffix(table, fmt.Sprintf("  %d\n", total)) {
		r.t.Fatalf("%d points, not %d; %d is not in\n%s", look.Points, points, total, table)
	}
}

// figure is a sample of the archivist's figures.
func (r *trial) figure(name string) string {
	for _, line := range strings.Split(r.by.Figures.Page("", false), "\n") {
		if strings.HasPrefix(line, name+" ") {
			return strings.TrimPrefix(line, name+" ")
		}
	}
	return ""
}

func TestWhatHasEndedIsAdopted(t *testing.T) {
	r := begun(t)
	r.take(r.collected(1, 100, 5))
	r.take(r.collected(2, 100, 5))
	r.after(59 * time.Minute)
	r.take(r.collected(2, 100, 6))
	// (what comes again is nothing newer)
	r.time--
	r.take(r.collected(2, 100, 6))
	r.after(59 * time.Second)
	r.shows(11, 11)
	r.after(time.Second)
	// (five totals and a tombstone, and the six points of who goes on)
	r.shows(12, 11)
	if late := r.take(r.collected(1, 100, 9)); late != 1 {
		t.Fatal(late)
	}
	r.shows(12, 11)
	r.after(59 * time.Minute)
	r.shows(6+2, 11)
	if found := r.figure(`kotskhin_gateway_adopted_total{service="shop"}`); found != "2" {
		t.Fatal(found)
	}
	r.after(10 * time.Hour)
	r.shows(8, 11)
	if found := r.figure(`kotskhin_gateway_not_adopted_total{reason="is_archive"}`); found != "1" {
		t.Fatal(found)
	}
	// A writer that is told so begins anew, and counts on.
	if late := r.take(r.collected(1, 150, 9)); late != 0 {
		t.Fatal(late)
	}
	r.shows(17, 20)
}

// A gateway that is about to end adopts nothing more.
func TestNothingIsAdoptedAtTheEnd(t *testing.T) {
	r := begun(t)
	r.take(r.collected(1, 100, 5))
	r.clock = r.clock.Add(time.Hour)
	ctx, end := context.WithCancel(context.Background())
	end()
	r.by.Turn(ctx)
	r.shows(5, 5)
}

// Workers go on to report while they are adopted: each has counted just what it was told was taken before it was late.
func TestAdoptionsBesideTakes(t *testing.T) {
	r := begun(t)
	r.by.After = 0
	const workers, points = 4, 20
	var reports [workers][]*held.Brought
	for worker := range reports {
		for turn := 0; turn < 100; turn++ {
			export := r.counted(uint64(worker+1), points, int64(turn+1))
			reports[worker] = append(reports[worker], must[*held.Brought](t)(held.Bring([]kotskhin.Export{export}, nil)))
		}
	}
	var taken [workers]int
	var hands sync.WaitGroup
	for worker := range reports {
		hands.Add(1)
		go func(worker int) {
			defer hands.Done()
			for turn, brought := range reports[worker] {
				late, err := r.held.Take(brought)
				if err != nil || len(late) > 0 {
					return
				}
				taken[worker] = turn + 1
			}
		}(worker)
	}
	ended := make(chan struct{})
	go func() { defer close(ended); hands.Wait() }()
	for isEnded := false; !isEnded; {
		select {
		case <-ended:
			isEnded = true
		default:
		}
		r.by.Turn(context.Background())
	}
	total := 0
	for _, exports := range taken {
		total += exports * points
	}
	r.shows(points+workers, total)
}

func TestOtherServicesStay(t *testing.T) {
	r := begun(t)
	r.by.Services = []string{"bank", "till"}
	r.take(r.collected(1, 100, 5))
	r.after(2 * time.Hour)
	r.shows(5, 5)
}

// Of many exports in one body those that are late are told, and the others are taken.
func TestSomeOfABodyAreLate(t *testing.T) {
	r := begun(t)
	r.take(r.collected(1, 100, 5), r.collected(2, 100, 5))
	r.after(time.Hour)
	r.shows(5+2, 10)
	if late := r.take(r.collected(1, 100, 6), r.collected(3, 100, 7), r.collected(2, 100, 6)); late != 2 {
		t.Fatal(late)
	}
	r.shows(5+2+7, 17)
}

// What a worker brought to a peer that is away is not known, so nothing has ended then, nor at once when the peer is back.
func TestNothingIsAdoptedWhileAPeerIsAway(t *testing.T) {
	r := begun(t)
	r.take(r.collected(1, 100, 5))
	alone := r.by.Gossip
	r.by.Gossip = &gossip.Gossip{
		Held: r.held, Peers: []string{"http://127.0.0.1:1"}, Interval: time.Hour, LongestPause: time.Hour, Timeout: time.Hour,
	}
	ctx, end := context.WithCancel(context.Background())
	r.by.Gossip.Begin(ctx)
	r.after(2 * time.Hour)
	r.shows(5, 5)
	end()
	r.by.Gossip.Wait()
	r.by.Gossip = alone
	r.after(59 * time.Minute)
	r.shows(5, 5)
	r.after(time.Minute)
	r.shows(5+1, 5)
}

// What comes between the look for what has ended and its adoption keeps it.
func TestWhoReportsAgainIsNotAdopted(t *testing.T) {
	r := begun(t)
	r.take(r.collected(1, 100, 5))
	r.take(r.collected(2, 100, 5))
	r.clock = r.clock.Add(time.Hour)
	ended := r.held.ListEnded("shop", time.Hour, r.clock)
	if len(ended) != 2 {
		t.Fatal(ended)
	}
	r.take(r.collected(1, 100, 6))
	turn := &turn{Archivist: r.by, shelf: newShelf("shop"), front: ended}
	if err := (*store.Store)(nil).Adding(turn.run); err != nil || turn.done != 2 || len(turn.adopted) != 1 {
		t.Fatal(err, turn.done, turn.adopted)
	}
	r.shows(6+5+1, 11)
	r.after(59 * time.Minute)
	r.shows(12, 11)
	if late := r.take(r.collected(1, 100, 7)); late != 0 {
		t.Fatal(late)
	}
}

// clash is an export of a writer that has another one's identity and time, and counted 7 at the first set.
func (r *trial) clash(instance, start uint64) kotskhin.Export {
	r.t.Helper()
	plan := must[kotskhin.Plan](r.t)(kotskhin.NewPlan(requests))
	writer := must[kotskhin.Writer](r.t)(kotskhin.StartWriter(plan, "shop", kotskhin.Instance{Low: instance}, start))
	defer writer.Close()
	if err := writer.Measure(0, must[kotskhin.Attributes](r.t)(kotskhin.NewAttributes(attribute.Int("n", 0))), 7); err != nil {
		r.t.Fatal(err)
	}
	return must[kotskhin.Export](r.t)(writer.Collect(r.time))
}

// What can't be adopted stays as it is, is counted once, and is tried again once it moved.
func TestWhatIsLeft(t *testing.T) {
	r := begun(t)
	// (of the first writer's last collection one point is missing, and the second shares its identity with another)
	r.take(r.collected(1, 100, 5))
	r.take(r.collected(1, 100, 4))
	r.take(r.collected(2, 100, 3))
	r.take(r.clash(2, 100))
	for turn := 0; turn < 3; turn++ {
		r.after(time.Hour)
		r.shows(8, 5+2)
	}
	for reason, wanted := range map[string]string{"torn": "1", "conflict": "1"} {
		if found := r.figure(`kotskhin_gateway_not_adopted_total{reason="` + reason + `"}`); found != wanted {
			t.Fatal(reason, found)
		}
	}
	r.take(r.collected(1, 100, 5))
	r.after(time.Hour)
	r.shows(3+5+1, 5+2)
}

// An archive that is full is followed by another one, and what has more points than an archive may have totals is left.
func TestArchivesAreFilled(t *testing.T) {
	r := begun(t)
	for instance := uint64(1); instance <= mostAdopted+5; instance++ {
		r.take(r.collected(instance, 100, 1))
	}
	r.after(time.Hour)
	r.shows(mostAdopted+5+2, mostAdopted+5)
	if found := r.figure(`kotskhin_gateway_archives_sealed_total{service="shop"}`); found != "1" {
		t.Fatal(found)
	}
}

func TestAnArchiveHasSoManyTotals(t *testing.T) {
	r := begun(t)
	own := newShelf("shop")
	own.limit = 10
	r.by.shelves = []*shelf{own}
	r.take(r.collected(1, 100, 3))
	r.take(r.collected(2, 101, 11))
	r.take(r.collected(3, 102, 3))
	r.after(time.Hour)
	r.shows(3+1+11+3+1, 3+11+3)
	for name, wanted := range map[string]string{
		`kotskhin_gateway_not_adopted_total{reason="set_limit"}`: "1", `kotskhin_gateway_archives_sealed_total{service="shop"}`: "1",
		`kotskhin_gateway_adopted_total{service="shop"}`: "2",
	} {
		if found := r.figure(name); found != wanted {
			t.Error(name, found)
		}
	}
}

// A plan in which a name has another kind goes on to be shown once those before it are adopted, though the archive came later.
func TestWhatIsAdoptedHidesNoMetric(t *testing.T) {
	r := begun(t)
	r.take(r.collected(1, 100, 1))
	gauge := kotskhin.Instrument{Scope: "app", Name: "requests_total", Kind: kotskhin.Gauge}
	plan := must[kotskhin.Plan](t)(kotskhin.NewPlan(gauge))
	writer := must[kotskhin.Writer](t)(kotskhin.StartWriter(plan, "shop", kotskhin.Instance{Low: 2}, 150))
	if err := writer.Measure(0, must[kotskhin.Attributes](t)(kotskhin.NewAttributes()), 7); err != nil {
		t.Fatal(err)
	}
	r.clock = r.clock.Add(time.Hour)
	r.take(must[kotskhin.Export](t)(writer.Collect(300)))
	row := func() {
		t.Helper()
		look := must[*held.Look](t)(r.held.Look())
		page := must[string](t)(look.Prometheus())
		if !strings.Contains(page, "\nrequests_total{otel_scope_name=\"app\",service_name=\"shop\"} 7\n") {
			t.Fatal(page)
		}
	}
	row()
	r.after(0)
	r.shows(1+1+1, 1)
	row()
}

// A process that was stopped for long hears its live workers again before it adopts anything, whatever waited for it in sockets.
func TestAStopBeginsTheTimeAnew(t *testing.T) {
	r := begun(t)
	r.by.Every = time.Minute
	// (the first worker lives, and pushes each ten minutes)
	runs := func(minutes int) {
		for minute := 1; minute <= minutes; minute++ {
			if minute%10 == 0 {
				r.take(r.collected(1, 100, 5))
			}
			r.after(time.Minute)
		}
	}
	r.take(r.collected(1, 100, 5))
	r.take(r.collected(2, 100, 5))
	runs(59)
	r.after(2*time.Minute + 1)
	r.shows(10, 10)
	runs(59)
	r.after(time.Hour)
	r.shows(10, 10)
	runs(59)
	r.shows(10, 10)
	runs(1)
	r.shows(5+5+1, 10)
}

// What is adopted had ended by the look's own time: a stop between the look and the adoption takes nobody for ended.
func TestAStopWithinATurn(t *testing.T) {
	r := begun(t)
	r.by.Every = time.Minute
	r.take(r.collected(1, 100, 5))
	looks := 0
	r.held.Now = func() time.Time {
		if looks++; looks > 1 {
			return r.clock.Add(2 * time.Hour)
		}
		return r.clock
	}
	r.clock = r.clock.Add(time.Minute)
	r.by.Turn(context.Background())
	r.shows(5, 5)
	r.clock = r.clock.Add(time.Hour)
	looks = 0
	r.by.Turn(context.Background())
	r.shows(5, 5)
}

// A peer that archives the same service: neither adopts, nor at once when the other one does not any more.
func TestAnotherArchivistOfTheService(t *testing.T) {
	r := begun(t)
	var out bytes.Buffer
	r.by.Log = logs.New(&out, logs.Warn, false)
	who := gossip.Who{ID: 7, Process: "other", Archives: []string{"bank", "shop"}}
	peer := httptest.NewServer(http.HandlerFunc(func(w http.ResponseWriter, _ *http.Request) { json.NewEncoder(w).Encode(who) }))
	defer peer.Close()
	alone := r.by.Gossip
	r.by.Gossip = &gossip.Gossip{Held: r.held, Peers: []string{peer.URL}, Interval: time.Hour, LongestPause: time.Hour, Timeout: time.Minute}
	ctx, end := context.WithCancel(context.Background())
	r.by.Gossip.Begin(ctx)
	for len(r.by.Gossip.Rivals("shop")) == 0 {
		time.Sleep(time.Millisecond)
	}
	r.take(r.collected(1, 100, 5))
	for turn := 0; turn < 3; turn++ {
		r.after(30 * time.Second)
	}
	r.shows(5, 5)
	r.by.Figures.Reads(r.by.Show)
	if found := r.figure(`kotskhin_gateway_archivists_conflict{service="shop"}`); found != "1" {
		t.Fatal(found)
	}
	if lines := strings.Count(out.String(), "another gateway archives this service"); lines != 2 {
		t.Fatal(lines, out.String())
	}
	end()
	r.by.Gossip.Wait()
	r.by.Gossip = alone
	r.after(time.Hour - time.Second)
	r.shows(5, 5)
	r.after(time.Second)
	r.shows(5+1, 5)
}

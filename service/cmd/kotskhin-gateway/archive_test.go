package main

import (
	"bytes"
	"context"
	"fmt"
	"io"
	"net/http"
	"os"
	"path/filepath"
	"strings"
	"testing"
	"time"

	kotskhin "kotskhin.example/sdk/go"
	"kotskhin.example/sdk/go/attribute"
	"kotskhin.example/service/internal/figures"
	"kotskhin.example/service/internal/gossip"
	"kotskhin.example/service/internal/held"
	"kotskhin.example/service/internal/logs"
	"kotskhin.example/service/internal/settings"
)

// A process is a gateway over a folder, and an archivist whose clock goes on where it is told to.
type process struct {
	*running
	t     *testing.T
	after func(length time.Duration)
}

// loaded is a gateway that begins with what a folder has. It ends as one does that is killed, where it is told to, or with the test.
func loaded(t *testing.T, folder string) *process {
	t.Helper()
	words := []string{"--state", folder, "--archive", "shop"}
	read := must[*settings.Settings](t)(settings.Read(words, func(string) string { return "" }, io.Discard))
	r := &running{settings: read, log: logs.New(io.Discard, logs.Error, false), figures: figures.New()}
	if err := r.load(); err != nil {
		t.Fatal(err)
	}
	t.Cleanup(func() { r.store.Close() })
	r.gossip = &gossip.Gossip{Held: r.held}
	clock := time.Now()
	r.held.Now = func() time.Time { return clock }
	by := r.archivist()
	return &process{r, t, func(length time.Duration) {
		by.Turn(context.Background())
		for end := clock.Add(length); clock.Before(end); by.Turn(context.Background()) {
			clock = clock.Add(by.Every)
		}
	}}
}

// collected are the bytes of a worker's collection: each of so many sets has counted a value.
func collected(t *testing.T, instance, time uint64, points int, value int64) []byte {
	t.Helper()
	requests := kotskhin.Instrument{Scope: "app", Name: "requests", Unit: "1", Kind: kotskhin.Counter}
	plan := must[kotskhin.Plan](t)(kotskhin.NewPlan(requests))
	writer := must[kotskhin.Writer](t)(kotskhin.StartWriter(plan, "shop", kotskhin.Instance{Low: instance}, 100))
	defer writer.Close()
	for n := 0; n < points; n++ {
		if err := writer.Measure(0, must[kotskhin.Attributes](t)(kotskhin.NewAttributes(attribute.Int("n", n))), value); err != nil {
			t.Fatal(err)
		}
	}
	return must[[]byte](t)(must[kotskhin.Export](t)(writer.Collect(time)).Encode())
}

// take keeps an export and takes it, and tells how many were late.
func (p *process) take(bytes []byte) (late int) {
	p.t.Helper()
	export := must[kotskhin.Export](p.t)(kotskhin.DecodeExport(bytes))
	brought := must[*held.Brought](p.t)(held.Bring([]kotskhin.Export{export}, bytes))
	if err := p.store.Keep(bytes, func() error {
		told, err := p.held.Take(brought)
		late = len(told)
		return err
	}); err != nil {
		p.t.Fatal(err)
	}
	return late
}

// shows checks how many points are held, and what all requests come to.
func (p *process) shows(points, total int) {
	p.t.Helper()
	look := must[*held.Look](p.t)(p.held.Look())
	ask := must[kotskhin.Ask](p.t)(kotskhin.AskSum("app", "requests", "1", true))
	if err := ask.Keep(); err != nil {
		p.t.Fatal(err)
	}
	table := must[string](p.t)(look.Gateway().Table(ask))
	if look.Points != points || !strings.HasSuffix(table, fmt.Sprintf("  %d\n", total)) {
		p.t.Fatalf("%d points, not %d; %d is not in\n%s", look.Points, points, total, table)
	}
}

// What was adopted stays so over a kill and over an end, and the state that is saved has no more than is shown.
func TestAdoptionsComeBack(t *testing.T) {
	folder := t.TempDir()
	p := loaded(t, folder)
	for instance := uint64(1); instance < 4; instance++ {
		p.take(collected(t, instance, 200, 50, 2))
	}
	p.after(0)
	if err := p.store.Save(p.held.Encode); err != nil {
		t.Fatal(err)
	}
	state := filepath.Join(folder, "state.ktsm")
	before := must[os.FileInfo](t)(os.Stat(state)).Size()
	p.after(time.Hour)
	p.take(collected(t, 4, 200, 1, 7))
	p.shows(50+3+1, 307)
	for turn := 0; turn < 2; turn++ {
		// (the state has what was adopted, and the journal the archive's export; then the state has that alone)
		p.store.Close()
		p = loaded(t, folder)
		p.shows(50+3+1, 307)
		if late := p.take(collected(t, 2, 300, 50, 3)); late != 1 {
			t.Fatal(late)
		}
		p.shows(50+3+1, 307)
		if err := p.store.Save(p.held.Encode); err != nil {
			t.Fatal(err)
		}
	}
	if after := must[os.FileInfo](t)(os.Stat(state)).Size(); after >= before {
		t.Fatal(before, after)
	}
	// (a fresh archive adopts the fourth one: it has a total of its own)
	p.after(time.Hour)
	p.shows(50+4+1, 307)
}

// Where the disk refuses an archive's export, nothing is lost and nothing counts twice, whatever comes back.
func TestAdoptionsThatAreNotKept(t *testing.T) {
	folder := t.TempDir()
	p := loaded(t, folder)
	p.take(collected(t, 1, 200, 5, 2))
	p.take(collected(t, 2, 200, 5, 2))
	p.store.Close()
	p.after(time.Hour)
	p.shows(5+2, 20)
	p = loaded(t, folder)
	p.shows(10, 20)
	p.after(time.Hour)
	p.shows(5+2, 20)
	p.store.Close()
	p = loaded(t, folder)
	p.shows(5+2, 20)
}

// Two gateways, of which one adopts: both forget, both show the same all the while, and so does the one that comes back.
func TestGatewaysForgetTogether(t *testing.T) {
	room, ports := t.TempDir(), []string{freePort(t), freePort(t)}
	words := func(number int, more ...string) []string {
		return append([]string{"--listen", "127.0.0.1:" + ports[number], "--state", filepath.Join(room, ports[number]),
			"--gossip-interval", "10ms", "--gossip-longest-pause", "50ms", "--peer", "http://127.0.0.1:" + ports[1-number]}, more...)
	}
	archives := []string{"--archive", "shop", "--archive-after", "1s", "--archive-every", often}
	ends := []func() error{begun(t, words(0, archives...)...), begun(t, words(1)...)}
	client := &http.Client{Timeout: 30 * time.Second}
	url := func(number int, path string) string { return "http://127.0.0.1:" + ports[number] + path }
	ask := func(number int, path string) string {
		status, told := asked(client, "GET", url(number, path), "", nil)
		if status != 200 {
			return ""
		}
		return told
	}
	for number := range ports {
		until(t, "it is not ready", func() bool { return ask(number, "/readyz") != "" })
	}
	for instance := uint64(1); instance < 9; instance++ {
		if status, told := asked(client, "POST", url(1, "/v1/exports"), "", collected(t, instance, 200, 50, 2)); status != 200 {
			t.Fatal(status, told)
		}
	}
	// (totals that were shown whole stay so, whatever is adopted)
	wasWhole := map[int]bool{}
	holds := func(number, points int) func() bool {
		return func() bool {
			page := ask(number, "/metrics")
			isWhole := strings.Count(page, "\nrequests_total{") == 50 && strings.Count(page, "service_name=\"shop\"} 16\n") == 50
			if page != "" && wasWhole[number] && !isWhole {
				t.Fatal(page)
			}
			wasWhole[number] = wasWhole[number] || isWhole
			return isWhole && strings.Contains(page, fmt.Sprintf("\nkotskhin_gateway_held_points %d\n", points))
		}
	}
	for number := range ports {
		until(t, "it forgets nothing", holds(number, 50+8))
		status, told := asked(client, "POST", url(number, "/v1/exports"), "", collected(t, 3, 300, 50, 3))
		if status != 200 || told != "{\"exports\":1,\"points\":50,\"late\":1}\n" {
			t.Fatal(status, told)
		}
	}
	for _, end := range ends {
		if err := end(); err != nil {
			t.Fatal(err)
		}
	}
	// (it shows what it has once it knows that the other one is away)
	alone := begun(t, words(1)...)
	until(t, "it comes back with something else", holds(1, 50+8))
	if err := alone(); err != nil {
		t.Fatal(err)
	}
}

// Two archives adopted one incarnation, and a gateway was told of both: it has a figure of that, and logs it as an error.
func TestTwoTombstonesAreAnError(t *testing.T) {
	folder, port := t.TempDir(), freePort(t)
	p, worker := loaded(t, folder), collected(t, 1, 200, 1, 7)
	for turn := 0; turn < 2; turn++ {
		gateway := must[kotskhin.Gateway](t)(kotskhin.OpenGateway(1))
		must[kotskhin.Taking](t)(gateway.Take(must[kotskhin.Export](t)(kotskhin.DecodeExport(worker))))
		archive := must[kotskhin.Archive](t)(kotskhin.BeginArchive("shop", 1))
		if err := archive.Adopt(gateway, "shop", kotskhin.Instance{Low: 1}, 100); err != nil {
			t.Fatal(err)
		}
		p.take(must[[]byte](t)(must[kotskhin.Export](t)(archive.Export(1000)).Encode()))
	}
	p.store.Close()
	var lines bytes.Buffer
	end, gateway := logging(t, &lines, "--listen", "127.0.0.1:"+port, "--state", folder), reached{t, "http://127.0.0.1:" + port}
	until(t, "it is not ready", gateway.isReady)
	if total, twice := gateway.total(), gateway.figure("adopted_twice"); total != "14" || twice != "1" {
		t.Fatal(total, twice)
	}
	if err := end(); err != nil {
		t.Fatal(err)
	}
	for _, wanted := range []string{`"level":"error"`, "two archives adopted one incarnation", `"incarnations":1`, "service=shop, start=100"} {
		if strings.Count(lines.String(), "\n") != 1 || !strings.Contains(lines.String(), wanted) {
			t.Fatal(wanted, lines.String())
		}
	}
}

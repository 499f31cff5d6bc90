package main

import (
	"fmt"
	"net/http"
	"os"
	"os/exec"
	"path/filepath"
	"strings"
	"syscall"
	"testing"
	"time"

	kotskhin "kotskhin.example/sdk/go"
	"kotskhin.example/sdk/go/attribute"
	"kotskhin.example/service/internal/settings"
)

// How often is looked for what has ended. Who looks half as often was stopped or starved, and adopts nothing for a while: a machine that is
// busy is not to be taken for that.
const often = "250ms"

// The variable by which this program is the gateway, and no test of it: a process of its own can be stopped.
const asGateway = "KOTSKHIN_TEST_IS_GATEWAY"

func TestMain(m *testing.M) {
	if os.Getenv(asGateway) != "" {
		os.Exit(run())
	}
	os.Exit(m.Run())
}

// A reached gateway is one that is asked by HTTP.
type reached struct {
	t   *testing.T
	url string
}

func (r reached) ask(method, path string, body []byte) (int, string) {
	r.t.Helper()
	return asked(&http.Client{Timeout: 30 * time.Second}, method, r.url+path, "", body)
}

func (r reached) isReady() bool {
	status, _ := r.ask("GET", "/readyz", nil)
	return status == 200
}

// push pushes an export that must be taken, and is not late.
func (r reached) push(body []byte) {
	r.t.Helper()
	if status, told := r.ask("POST", "/v1/exports", body); status != 200 || strings.Contains(told, "late") {
		r.t.Fatal(status, told)
	}
}

// total is what all requests of the service come to.
func (r reached) total() string {
	_, told := r.ask("GET", "/v1/table?name=requests&keep=", nil)
	words := strings.Fields(told)
	if len(words) == 0 {
		return ""
	}
	return words[len(words)-1]
}

// figure is a sample of what the gateway says of itself.
func (r reached) figure(name string) string {
	_, page := r.ask("GET", "/metrics", nil)
	for _, line := range strings.Split(page, "\n") {
		if strings.HasPrefix(line, "kotskhin_gateway_"+name+" ") {
			return strings.TrimPrefix(line, "kotskhin_gateway_"+name+" ")
		}
	}
	return ""
}

func (r reached) peers() string {
	_, told := r.ask("GET", "/v1/peers", nil)
	return told
}

// alike are two gateways of one template, which has these words too, and what begins the second one anew without them.
func alike(t *testing.T, more ...string) (gateways []reached, anew func(), end func()) {
	t.Helper()
	room, ports := t.TempDir(), []string{freePort(t), freePort(t)}
	words := func(number int, more ...string) []string {
		return append([]string{"--listen", "127.0.0.1:" + ports[number], "--state", filepath.Join(room, ports[number]),
			"--gossip-interval", "300ms", "--gossip-longest-pause", "300ms", "--peer", "http://127.0.0.1:" + ports[1-number]}, more...)
	}
	ends := []func() error{begun(t, words(0, more...)...), begun(t, words(1, more...)...)}
	for _, port := range ports {
		gateways = append(gateways, reached{t, "http://127.0.0.1:" + port})
		until(t, "it is not ready", gateways[len(gateways)-1].isReady)
	}
	ended := func(number int) {
		t.Helper()
		if err := ends[number](); err != nil {
			t.Fatal(err)
		}
	}
	return gateways, func() { ended(1); ends[1] = begun(t, words(1)...) }, func() { ended(0); ended(1) }
}

// Two gateways of one template archive one service: neither adopts, until one is started without it. What was counted stays.
func TestTwoArchivistsOfOneTemplate(t *testing.T) {
	gateways, anew, end := alike(t, "--archive", "shop", "--archive-after", "1s", "--archive-every", often)
	for instance := uint64(1); instance < 11; instance++ {
		export := collected(t, instance, 200, 50, 1)
		for _, gateway := range gateways {
			gateway.push(export)
		}
	}
	for _, gateway := range gateways {
		until(t, "no conflict is told", func() bool { return gateway.figure(`archivists_conflict{service="shop"}`) == "1" })
	}
	time.Sleep(3 * time.Second)
	for _, gateway := range gateways {
		conflict, adopted := gateway.figure(`archivists_conflict{service="shop"}`), gateway.figure(`adopted_total{service="shop"}`)
		if gateway.total() != "500" || conflict != "1" || adopted != "" || !strings.Contains(gateway.peers(), `"archives":["shop"]`) {
			t.Fatal(gateway.total(), conflict, adopted, gateway.peers())
		}
	}
	anew()
	for _, gateway := range gateways {
		until(t, "nothing is adopted once one alone archives", func() bool { return gateway.figure("held_points") == "60" })
		if gateway.total() != "500" || gateway.figure("adopted_twice") != "0" {
			t.Fatal(gateway.total(), gateway.figure("adopted_twice"))
		}
	}
	if conflict := gateways[0].figure(`archivists_conflict{service="shop"}`); conflict != "0" {
		t.Fatal(conflict)
	}
	end()
}

// counted is a worker of an instance, and what gives its next export: it counted one more.
func counted(t *testing.T, instance uint64) func() []byte {
	t.Helper()
	requests := kotskhin.Instrument{Scope: "app", Name: "requests", Unit: "1", Kind: kotskhin.Counter}
	plan := must[kotskhin.Plan](t)(kotskhin.NewPlan(requests))
	writer := must[kotskhin.Writer](t)(kotskhin.StartWriter(plan, "shop", kotskhin.Instance{Low: instance}, 100))
	set := must[kotskhin.Attributes](t)(kotskhin.NewAttributes(attribute.Int("n", 0)))
	at := uint64(200)
	return func() []byte {
		at++
		if err := writer.Measure(0, set, 1); err != nil {
			t.Error(err)
		}
		export, err := writer.Collect(at)
		if err != nil {
			t.Error(err)
			return nil
		}
		defer export.Close()
		bytes, err := export.Encode()
		if err != nil {
			t.Error(err)
		}
		return bytes
	}
}

// pushing has a worker push until it is ended, and gives what tells how many of its exports were late.
func pushing(t *testing.T, to string, instance uint64, every time.Duration, end <-chan struct{}) <-chan int {
	next, told := counted(t, instance), make(chan int, 1)
	client := &http.Client{Timeout: 30 * time.Second, Transport: &http.Transport{}}
	go func() {
		late := 0
		defer func() { told <- late }()
		for {
			if status, said := asked(client, "POST", to+"/v1/exports", "", next()); status != 200 || strings.Contains(said, "late") {
				late++
			}
			select {
			case <-time.After(every):
			case <-end:
				return
			}
		}
	}()
	return told
}

// A gateway is stopped for longer than what has ended is silent, while workers push to it. They live: none is adopted once it goes on.
func TestAStoppedArchivist(t *testing.T) {
	port := freePort(t)
	gateway := exec.Command(os.Args[0], "--listen", "127.0.0.1:"+port, "--archive", "shop", "--archive-after", "3500ms",
		"--archive-every", "200ms", "--log-level", "error")
	gateway.Env = append(os.Environ(), asGateway+"=1")
	if err := gateway.Start(); err != nil {
		t.Fatal(err)
	}
	defer gateway.Wait()
	defer gateway.Process.Kill()
	served := reached{t, "http://127.0.0.1:" + port}
	until(t, "it is not ready", served.isReady)
	end, workers := make(chan struct{}), []<-chan int{}
	for instance := uint64(1); instance <= 20; instance++ {
		workers = append(workers, pushing(t, served.url, instance, 500*time.Millisecond, end))
	}
	time.Sleep(time.Second)
	for _, stop := range []time.Duration{3300 * time.Millisecond, 5 * time.Second} {
		gateway.Process.Signal(syscall.SIGSTOP)
		time.Sleep(stop)
		gateway.Process.Signal(syscall.SIGCONT)
		time.Sleep(4 * time.Second)
	}
	close(end)
	for number, told := range workers {
		if late := <-told; late != 0 {
			t.Errorf("of worker %d, which lives, %d exports are late", number+1, late)
		}
	}
	if adopted := served.figure(`adopted_total{service="shop"}`); adopted != "" {
		t.Error(adopted)
	}
	until(t, "who ended is not adopted", func() bool { return served.figure(`adopted_total{service="shop"}`) == "20" })
}

// How long nothing newer came to a pair of what has ended, and what is longer. What a test brings at once comes within that on a machine
// that is busy, too.
const silent, longer = 4 * time.Second, 6 * time.Second

// A pair of gateways that find each other by names. The first archives, and looks both up; the second looks up the first.
type pair struct {
	t          *testing.T
	names      *names
	one, other reached
	words      [2][]string
	ends       [2]func() error
}

func paired(t *testing.T) *pair {
	t.Helper()
	room, port := t.TempDir(), freePort(t)
	made := &pair{t: t, names: answering(t), one: reached{t, "http://127.0.0.1:" + port}, other: reached{t, "http://127.0.0.2:" + port}}
	made.are("127.0.0.1", "127.0.0.2")
	made.names.set("back.test", "127.0.0.1")
	usual := []string{"--gossip-interval", "50ms", "--gossip-longest-pause", "100ms", "--gossip-timeout", "2s", "--peer-refresh", "50ms"}
	made.words[0] = append([]string{"--listen", "127.0.0.1:" + port, "--state", filepath.Join(room, "1"), "--peer", "gateways.test:" + port,
		"--archive", "shop", "--archive-after", silent.String(), "--archive-every", often}, usual...)
	made.words[1] = append([]string{"--listen", "127.0.0.2:" + port, "--state", filepath.Join(room, "2"), "--peer", "back.test:" + port},
		usual...)
	for number := range made.words {
		made.begin(number)
	}
	for _, gateway := range []reached{made.one, made.other} {
		until(t, "it is not ready", gateway.isReady)
	}
	return made
}

// are says who stands under the name by which the first one looks both up.
func (p *pair) are(addresses ...string) { p.names.set("gateways.test", addresses...) }

func (p *pair) begin(number int) { p.ends[number] = begun(p.t, p.words[number]...) }

func (p *pair) end(number int) {
	p.t.Helper()
	if err := p.ends[number](); err != nil {
		p.t.Fatal(err)
	}
}

// isMissing tells whether the first one misses the second one.
func (p *pair) isMissing() bool {
	return strings.Contains(p.one.peers(), `"state":"missing"`) && p.one.figure("peers_missing") == "1"
}

// A peer falls out of its name while it alone has what it told a worker that it took. Nothing of that is hidden, also over a restart.
func TestAPeerThatVanishesFromItsName(t *testing.T) {
	p := paired(t)
	p.one.push(collected(t, 1, 200, 1, 18))
	until(t, "the other one is not told", func() bool { return p.other.total() == "18" })
	// (it tells nobody any more what it takes, and then nobody finds it)
	p.names.set("back.test", "127.0.0.3")
	until(t, "it looks up no peer", func() bool { return strings.Contains(p.other.peers(), "127.0.0.3") })
	p.other.push(collected(t, 1, 300, 1, 28))
	p.are("127.0.0.1")
	until(t, "it is not missed", p.isMissing)
	time.Sleep(longer)
	p.end(0)
	p.begin(0)
	until(t, "it is not missed after a restart", func() bool { return p.one.isReady() && p.isMissing() })
	time.Sleep(longer)
	p.are("127.0.0.1", "127.0.0.2")
	p.names.set("back.test", "127.0.0.1")
	for _, gateway := range []reached{p.one, p.other} {
		until(t, "what was told to be taken is hidden", func() bool { return gateway.total() == "28" })
		until(t, "it is not adopted once all are there", func() bool { return gateway.figure("held_points") == "2" && gateway.total() == "28" })
	}
	p.end(0)
	p.end(1)
}

// Once an operator says that a peer which is missed is gone for good, the others go on.
func TestAPeerThatIsGone(t *testing.T) {
	p := paired(t)
	p.end(1)
	p.one.push(collected(t, 2, 200, 1, 5))
	p.are("127.0.0.1")
	until(t, "it is not missed", p.isMissing)
	time.Sleep(longer)
	if adopted := p.one.figure(`adopted_total{service="shop"}`); adopted != "" {
		t.Fatal(adopted)
	}
	gone := "/v1/gone?peer=" + strings.TrimPrefix(p.other.url, "http://")
	if status, told := p.one.ask("POST", gone, nil); status != 200 {
		t.Fatal(status, told)
	}
	if status, told := p.one.ask("POST", gone, nil); status != 404 || p.isMissing() {
		t.Fatal(status, told)
	}
	until(t, "nothing is adopted", func() bool { return p.one.figure("held_points") == "2" && p.one.total() == "5" })
	p.end(0)
}

// What is refused at the start is said.
func TestArchiveAfterIsRefusedAtTheStart(t *testing.T) {
	gateway := exec.Command(os.Args[0], "--archive", "shop", "--archive-after", "79s", "--peer", "http://127.0.0.1:1")
	gateway.Env = append(os.Environ(), asGateway+"=1", settings.Unsafe+"=")
	told, err := gateway.CombinedOutput()
	if err == nil || gateway.ProcessState.ExitCode() != refused || !strings.Contains(string(told), "at least 1m20s") {
		t.Fatal(fmt.Sprint(err), string(told))
	}
}

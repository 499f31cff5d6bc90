package server

import (
	"bytes"
	"fmt"
	"net/http"
	"strings"
	"sync"
	"testing"
	"time"

	"kotskhin.example/service/internal/figures"
	"kotskhin.example/service/internal/logs"
	"kotskhin.example/service/internal/otlp"
	"kotskhin.example/service/internal/tokens"
)

// A shelter is a log that many may write to and read.
type shelter struct {
	lock sync.Mutex
	out  bytes.Buffer
}

func (s *shelter) Write(line []byte) (int, error) {
	s.lock.Lock()
	defer s.lock.Unlock()
	return s.out.Write(line)
}

func (s *shelter) lines() string {
	s.lock.Lock()
	defer s.lock.Unlock()
	return s.out.String()
}

// field is a field of OTLP that has bytes.
func field(number byte, content ...[]byte) []byte {
	return append([]byte{number<<3 | 2}, framed(bytes.Join(content, nil))...)
}

// request is one of a resource, which may say a service and an instance, with a counter that has one value.
func request(service, instance string) []byte {
	var attributes [][]byte
	for key, value := range map[string]string{"service.name": service, "service.instance.id": instance} {
		if value != "" {
			attributes = append(attributes, field(1, field(1, []byte(key)), field(2, field(1, []byte(value)))))
		}
	}
	point := append([]byte{0x11, 100, 0, 0, 0, 0, 0, 0, 0, 0x19, 200}, 0, 0, 0, 0, 0, 0, 0, 0x31, 7, 0, 0, 0, 0, 0, 0, 0)
	sum := append(field(1, point), 0x10, 2, 0x18, 1)
	metric := field(2, field(1, []byte("requests")), field(7, sum))
	return field(1, field(1, attributes...), field(2, field(1, field(1, []byte("app"))), metric))
}

// What a stock sender loses is told by service and reason, in the log and in a figure.
func TestWhatIsLeftOutIsTold(t *testing.T) {
	var out shelter
	s, url := served(t, 1, func(s *Server) { s.Log = logs.New(&out, logs.Warn, false) })
	const uuid = "00000000-0000-0000-0000-000000000007"
	for _, body := range [][]byte{
		request("shop", ""), request("shop", "pod-7f9c"), request("shop", "pod-7f9c"), request("", uuid), request("shop", uuid),
		append(request("till", ""), request("shop", "")...),
	} {
		if status, said, _ := got(t, http.MethodPost, url+"/v1/metrics", body, "Content-Type", otlp.Type); status != 200 {
			t.Fatal(status, said)
		}
	}
	for labels, wanted := range map[string]string{
		`service="shop",reason="no_instance"`: "2", `service="shop",reason="not_uuid"`: "2", `service="",reason="no_service"`: "1",
		`service="till",reason="no_instance"`: "1",
	} {
		if found := row(t, url, "kotskhin_gateway_points_without_counterpart_total{"+labels+"}"); found != wanted {
			t.Error(labels, found)
		}
	}
	if total := row(t, url, allRequests); total != "7" {
		t.Error(total)
	}
	// (the first at once, and the others once a minute is over or the gateway ends)
	line := func(service, reason string, points int) string {
		return fmt.Sprintf(`"service":"%s","reason":"%s","points":%d`, service, reason, points)
	}
	if lines := out.lines(); strings.Count(lines, "\n") != 1 || !strings.Contains(lines, line("shop", "no_instance", 1)) {
		t.Error(lines)
	}
	s.Tell()
	lines := out.lines()
	for _, wanted := range []string{
		line("shop", "no_instance", 1), line("shop", "not_uuid", 2), line("", "no_service", 1), line("till", "no_instance", 1),
	} {
		if !strings.Contains(lines, wanted) || !strings.Contains(lines, `"level":"warn"`) {
			t.Error(wanted, lines)
		}
	}
}

func left(service, reason string, points int) map[otlp.Left]int {
	return map[otlp.Left]int{{Service: service, Reason: reason}: points}
}

// However many services a sender names, figures and lines have an end; of those that are not his nothing is named.
func TestWhatIsLeftOutHasBounds(t *testing.T) {
	var out shelter
	f := figures.New()
	l := newLeftOut(f, logs.New(&out, logs.Warn, false))
	l.last = time.Now()
	for number := 0; number < 1000; number++ {
		l.add(left(fmt.Sprintf("service-%d", number), "not_uuid", 1), tokens.Everything, "sender")
	}
	l.add(left("foreign", "not_uuid", 5), tokens.Grant{}, "sender")
	l.add(left(strings.Repeat("я", 1000), "not_uuid", 1), tokens.Everything, "sender")
	l.tell()
	page := f.Page("", false)
	if count := strings.Count(page, "\nkotskhin_gateway_points_without_counterpart_total{"); count != mostServices+1 {
		t.Error(count)
	}
	if !strings.Contains(page, `{service="other",reason="not_uuid"} 906`) || strings.Contains(page, "foreign") {
		t.Error(page)
	}
	const rest = `"service":"other","reason":"other","points":81`
	if count := strings.Count(out.lines(), "\n"); count != mostLines+1 || !strings.Contains(out.lines(), rest) {
		t.Error(count, out.lines())
	}
}

// What comes after a line is told once its time is over, also where nothing more comes.
func TestWhatIsLeftOutIsToldAtLast(t *testing.T) {
	var out shelter
	l := newLeftOut(figures.New(), logs.New(&out, logs.Warn, false))
	// (more than lies between what is added here, on a machine that is busy, too)
	l.pause = 2 * time.Second
	for _, points := range []int{1, 2, 3} {
		l.add(left("shop", "not_uuid", points), tokens.Everything, "sender")
	}
	for turn := 0; strings.Count(out.lines(), "\n") < 2; turn++ {
		if turn == 6000 {
			t.Fatal(out.lines())
		}
		time.Sleep(10 * time.Millisecond)
	}
	if lines := out.lines(); !strings.Contains(lines, `"points":1,`) || !strings.Contains(lines, `"points":5,`) {
		t.Fatal(lines)
	}
}

package metric

import (
	"bytes"
	"context"
	"errors"
	"io"
	"log"
	"net/http"
	"net/http/httptest"
	"os"
	"path/filepath"
	"strings"
	"sync"
	"sync/atomic"
	"syscall"
	"testing"
	"time"

	kotskhin "kotskhin.example/sdk/go"
)

func counting(t *testing.T, reader *PeriodicReader) (*MeterProvider, Int64Counter) {
	t.Helper()
	p := newProvider(t, WithReader(reader))
	requests, err := p.Meter("app").Int64Counter("requests")
	if err != nil {
		t.Fatal(err)
	}
	return p, requests
}

func decoded(t *testing.T, made []byte) string {
	t.Helper()
	export, err := kotskhin.DecodeExport(made)
	if err != nil {
		t.Fatal(err)
	}
	defer export.Close()
	return told(t, export, sum("requests"))
}

func TestAReaderCollectsOnceInAnInterval(t *testing.T) {
	exports := make(chan []byte, 1000)
	p, requests := counting(t, NewPeriodicReader(ExporterFunc(func(_ context.Context, export kotskhin.Export) error {
		made, err := export.Encode()
		exports <- made
		return err
	}), WithInterval(5*time.Millisecond)))
	time.Sleep(20 * time.Millisecond)
	if len(exports) != 0 {
		t.Fatal("it collects before there is anything")
	}
	requests.Add(ctx, 7)
	for i := 0; i < 3; i++ {
		is(t, decoded(t, <-exports), "{} 7")
	}
	requests.Add(ctx, 1)
	for i := 0; i < 2; i++ {
		if err := p.Shutdown(ctx); err != nil {
			t.Fatal(err)
		}
	}
	var last []byte
	for len(exports) > 0 {
		last = <-exports
	}
	is(t, decoded(t, last), "{} 8")
	if err := p.ForceFlush(ctx); err != nil {
		t.Fatal(err)
	}
}

func TestFailuresAreTold(t *testing.T) {
	var told []error
	broken := errors.New("no route")
	reader := NewPeriodicReader(ExporterFunc(func(context.Context, kotskhin.Export) error { return broken }),
		WithOnFailed(func(err error) { told = append(told, err) }))
	p, requests := counting(t, reader)
	if err := p.ForceFlush(ctx); err != nil {
		t.Fatal(err)
	}
	requests.Add(ctx, 7)
	if err := p.ForceFlush(ctx); !errors.Is(err, broken) {
		t.Fatal(err)
	}
	var why *ExportError
	if err := p.Shutdown(ctx); !errors.As(err, &why) || !errors.Is(err, broken) {
		t.Fatal(err)
	}
	is(t, decoded(t, why.Unsent), "{} 7")
	if len(told) != 2 || reader.Failed() != 2 {
		t.Fatal(told)
	}
}

func TestAnExporterThatPanicsFails(t *testing.T) {
	p, requests := counting(t, NewPeriodicReader(ExporterFunc(func(context.Context, kotskhin.Export) error { panic("at once") }),
		WithOnFailed(func(error) {})))
	requests.Add(ctx, 1)
	if err := p.ForceFlush(ctx); err == nil || !strings.Contains(err.Error(), "at once") {
		t.Fatal(err)
	}
}

func TestRecordingWaitsForNoExport(t *testing.T) {
	goes, came := make(chan struct{}), make(chan struct{}, 1)
	p, requests := counting(t, NewPeriodicReader(ExporterFunc(func(context.Context, kotskhin.Export) error {
		select {
		case came <- struct{}{}:
		default:
		}
		<-goes
		return nil
	}), WithInterval(time.Millisecond)))
	requests.Add(ctx, 1)
	<-came
	for n := 0; n < 2000; n++ {
		requests.Add(ctx, 1)
	}
	is(t, total(t, p), "{} 2001")
	close(goes)
	if err := p.Shutdown(ctx); err != nil {
		t.Fatal(err)
	}
}

func TestHooksThatPanicFailNothing(t *testing.T) {
	log.SetOutput(io.Discard)
	defer log.SetOutput(os.Stderr)
	reader := NewPeriodicReader(ExporterFunc(func(context.Context, kotskhin.Export) error { return errors.New("no") }),
		WithOnFailed(func(error) { panic("a hook") }))
	p := newProvider(t, WithReader(reader), WithOnRefused(func(Refusal) { panic("a hook") }))
	requests, _ := p.Meter("app").Int64Counter("requests")
	requests.Add(ctx, -1)
	if err := p.ForceFlush(ctx); err == nil || p.Refused() != 1 || reader.Failed() != 1 {
		t.Fatal(err, p.Refused())
	}
}

// Goroutines that record at once start the provider once.
func TestTheFirstRecordingsAtOnce(t *testing.T) {
	for round := 0; round < 100; round++ {
		p := newProvider(t)
		requests, _ := p.Meter("app").Int64Counter("requests")
		var group sync.WaitGroup
		for i := 0; i < 4; i++ {
			group.Add(1)
			go func() {
				defer group.Done()
				for turn := 0; turn < 5; turn++ {
					requests.Add(ctx, 1)
				}
			}()
		}
		group.Wait()
		is(t, total(t, p), "{} 20")
	}
}

func TestAnExportThatTakesTooLong(t *testing.T) {
	goes, calls := make(chan struct{}), int32(0)
	reader := NewPeriodicReader(ExporterFunc(func(context.Context, kotskhin.Export) error {
		atomic.AddInt32(&calls, 1)
		<-goes
		return nil
		// (the last export has this time, too, on a machine that may be busy)
	}), WithTimeout(3*time.Second), WithInterval(5*time.Millisecond), WithOnFailed(func(error) {}))
	p, requests := counting(t, reader)
	requests.Add(ctx, 7)
	for began := time.Now(); reader.Failed() == 0 && time.Since(began) < time.Minute; {
		time.Sleep(time.Millisecond)
	}
	short, cancel := context.WithTimeout(ctx, 20*time.Millisecond)
	defer cancel()
	if err := p.ForceFlush(short); !errors.Is(err, context.DeadlineExceeded) {
		t.Fatal(err)
	}
	if made := atomic.LoadInt32(&calls); made != 1 || reader.Failed() == 0 {
		t.Fatal(made, reader.Failed())
	}
	close(goes)
	if err := p.Shutdown(ctx); err != nil {
		t.Fatal(err)
	}
}

func TestTheClockMayBePutBack(t *testing.T) {
	p, requests := counting(t, NewPeriodicReader(ExporterFunc(func(context.Context, kotskhin.Export) error { return nil })))
	requests.Add(ctx, 1)
	engine := p.running.Load().(*engine)
	engine.last = now() + 1<<50
	export, err := p.Collect()
	if err != nil {
		t.Fatal(err)
	}
	head, err := export.Head()
	if err != nil || head.Time != engine.last {
		t.Fatal(head, err)
	}
}

func TestFiles(t *testing.T) {
	path := filepath.Join(t.TempDir(), "shop.ktsk")
	p, requests := counting(t, NewPeriodicReader(FileExporter(path)))
	for _, wanted := range []string{"{} 1", "{} 2"} {
		requests.Add(ctx, 1)
		if err := p.ForceFlush(ctx); err != nil {
			t.Fatal(err)
		}
		made, err := os.ReadFile(path)
		if err != nil {
			t.Fatal(err)
		}
		is(t, decoded(t, made), wanted)
	}
	if there, _ := os.ReadDir(filepath.Dir(path)); len(there) != 1 {
		t.Fatal(there)
	}
	defer syscall.Umask(syscall.Umask(0027))
	requests.Add(ctx, 1)
	if err := p.ForceFlush(ctx); err != nil {
		t.Fatal(err)
	}
	if found, err := os.Stat(path); err != nil || found.Mode() != 0640 {
		t.Fatal(found.Mode(), err)
	}
	p, requests = counting(t, NewPeriodicReader(FileExporter(filepath.Join(path, "no")), WithOnFailed(func(error) {})))
	requests.Add(ctx, 1)
	if err := p.Shutdown(ctx); err == nil {
		t.Fatal("it is written")
	}
}

// Where a file can't be replaced nothing is left beside it.
func TestAFileThatIsNotReplacedLeavesNothing(t *testing.T) {
	path := filepath.Join(t.TempDir(), "shop.ktsk")
	if err := os.MkdirAll(filepath.Join(path, "full"), 0777); err != nil {
		t.Fatal(err)
	}
	if err := FileExporter(path).Export(ctx, collected(t)); err == nil {
		t.Fatal("a folder is replaced")
	}
	if there, _ := os.ReadDir(filepath.Dir(path)); len(there) != 1 {
		t.Fatal(there)
	}
}

// Exporters of one file may run at once, and one of the exports is there as a whole.
func TestAFileOfSeveralExporters(t *testing.T) {
	path, export := filepath.Join(t.TempDir(), "shop.ktsk"), collected(t)
	var group sync.WaitGroup
	for i := 0; i < 4; i++ {
		group.Add(1)
		go func() {
			defer group.Done()
			for turn := 0; turn < 25; turn++ {
				if err := FileExporter(path).Export(ctx, export); err != nil {
					t.Error(err)
				}
			}
		}()
	}
	group.Wait()
	there, _ := os.ReadDir(filepath.Dir(path))
	made, err := os.ReadFile(path)
	if _, failed := kotskhin.DecodeExport(made); err != nil || failed != nil || len(there) != 1 {
		t.Fatal(err, failed, there)
	}
}

func TestPosts(t *testing.T) {
	exporters := map[string]func(string, http.Header, *http.Client) Exporter{
		"application/x-protobuf": HTTPExporter, "application/vnd.kotskhin.export": HTTPBytesExporter,
	}
	for kind, exporter := range exporters {
		var body []byte
		status := http.StatusOK
		server := httptest.NewServer(http.HandlerFunc(func(w http.ResponseWriter, r *http.Request) {
			if r.Method == http.MethodPost && r.Header.Get("Content-Type") == kind && r.Header.Get("X-Key") == "k" {
				body, _ = io.ReadAll(r.Body)
			}
			w.Header().Set("Location", "/other")
			w.WriteHeader(status)
		}))
		p, requests := counting(t, NewPeriodicReader(exporter(server.URL, http.Header{"X-Key": {"k"}}, nil), WithOnFailed(func(error) {})))
		requests.Add(ctx, 7)
		if err := p.ForceFlush(ctx); err != nil {
			t.Fatal(err)
		}
		for _, status = range []int{http.StatusInternalServerError, http.StatusFound} {
			if err := p.ForceFlush(ctx); err == nil || !strings.Contains(err.Error(), http.StatusText(status)) {
				t.Fatal(err)
			}
		}
		status = http.StatusOK
		if err := p.Shutdown(ctx); err != nil {
			t.Fatal(err)
		}
		server.Close()
		if kind == BytesType {
			is(t, decoded(t, body), "{} 7")
			continue
		}
		list, err := kotskhin.ExportsOfOTLP(body)
		if err != nil || len(list) != 1 {
			t.Fatal(list, err)
		}
		is(t, told(t, list[0], sum("requests")), "{} 7")
	}
}

func TestTables(t *testing.T) {
	var out bytes.Buffer
	p := newProvider(t, WithReader(NewPeriodicReader(TableExporter(&out))))
	requests, _ := p.Meter("app").Int64Counter("requests", WithUnit("1"))
	requests.Add(ctx, 7)
	if err := p.Shutdown(ctx); err != nil {
		t.Fatal(err)
	}
	is(t, out.String(), "app requests 1\nattributes  points  conflicts  total\n{}               1          0  7\n")
}

func TestAReaderIsOfOneProvider(t *testing.T) {
	reader := NewPeriodicReader(TableExporter(io.Discard))
	newProvider(t, WithReader(reader))
	if _, err := NewMeterProvider(WithReader(reader)); err == nil {
		t.Fatal("it is of two")
	}
}

package metric

import (
	"context"
	"errors"
	"net/http"
	"net/http/httptest"
	"strings"
	"sync/atomic"
	"testing"
	"time"

	kotskhin "kotskhin.example/sdk/go"
)

// Of several gateways one that is away is passed over, and the one that took the last export goes first.
func TestTheNextGatewayWhereOneFails(t *testing.T) {
	var asked [3]int32
	var down [3]int32
	var exporters []Exporter
	for i := range asked {
		i := i
		at := httptest.NewServer(http.HandlerFunc(func(w http.ResponseWriter, _ *http.Request) {
			atomic.AddInt32(&asked[i], 1)
			if atomic.LoadInt32(&down[i]) != 0 {
				w.WriteHeader(http.StatusServiceUnavailable)
			}
		}))
		defer at.Close()
		exporters = append(exporters, HTTPBytesExporter(at.URL, nil, nil))
	}
	export := collected(t)
	all := FirstOf(exporters...)
	push := func() error { return all.Export(context.Background(), export) }
	for turn, test := range []struct {
		down  [3]int32
		asked [3]int32
		fails bool
	}{
		{[3]int32{0, 0, 0}, [3]int32{1, 0, 0}, false},
		{[3]int32{1, 1, 0}, [3]int32{2, 1, 1}, false},
		{[3]int32{0, 0, 0}, [3]int32{2, 1, 2}, false},
		{[3]int32{1, 1, 1}, [3]int32{3, 2, 3}, true},
	} {
		down = test.down
		if err := push(); (err != nil) != test.fails || asked != test.asked {
			t.Fatal(turn, err, asked)
		}
	}
	if err := all.Shutdown(context.Background()); err != nil {
		t.Fatal(err)
	}
	if err := FirstOf().Export(context.Background(), export); err == nil {
		t.Fatal("nobody took it")
	}
}

// One that hangs leaves the others their part of the time.
func TestAnExporterThatHangs(t *testing.T) {
	hangs := ExporterFunc(func(ctx context.Context, _ kotskhin.Export) error { <-ctx.Done(); return ctx.Err() })
	isTaken := false
	takes := ExporterFunc(func(context.Context, kotskhin.Export) error { isTaken = true; return nil })
	ctx, cancel := context.WithTimeout(context.Background(), 4*time.Second)
	defer cancel()
	if err := FirstOf(hangs, takes).Export(ctx, collected(t)); err != nil || !isTaken {
		t.Fatal(err, isTaken)
	}
	err := FirstOf(hangs, hangs).Export(ctx, collected(t))
	if !errors.Is(err, context.DeadlineExceeded) || !strings.Contains(err.Error(), "failed") {
		t.Fatal(err)
	}
}

func collected(t *testing.T) kotskhin.Export {
	t.Helper()
	plan, err := kotskhin.NewPlan(kotskhin.Instrument{Scope: "app", Name: "requests", Unit: "1"})
	if err != nil {
		t.Fatal(err)
	}
	writer, err := kotskhin.StartWriter(plan, "shop", kotskhin.Instance{Low: 1}, 100)
	if err != nil {
		t.Fatal(err)
	}
	export, err := writer.Collect(200)
	if err != nil {
		t.Fatal(err)
	}
	return export
}

package server

import (
	"context"
	"errors"
	"testing"
	"time"

	"kotskhin.example/sdk/go/attribute"
	"kotskhin.example/sdk/go/metric"
)

// worker is a provider of the service shop that pushes by an exporter where it is flushed, its counter, and what failed.
func worker(t *testing.T, exporter metric.Exporter) (p *metric.MeterProvider, requests metric.Int64Counter, failed *[]error) {
	t.Helper()
	failed = new([]error)
	reader := metric.NewPeriodicReader(exporter, metric.WithOnFailed(func(err error) { *failed = append(*failed, err) }))
	resource := metric.WithResource(attribute.String(metric.ServiceName, "shop"))
	p = must[*metric.MeterProvider](t)(metric.NewMeterProvider(resource, metric.WithReader(reader)))
	return p, must[metric.Int64Counter](t)(p.Meter("app").Int64Counter("requests", metric.WithUnit("1"))), failed
}

// A worker that was taken for dead hears so of its exporter, by either form, and another gateway is not asked. It counts again once it
// began anew.
func TestALateWorkerHearsSo(t *testing.T) {
	byOTLP := func(url string) metric.Exporter { return metric.HTTPExporter(url+"/v1/metrics", nil, nil) }
	late := metric.NotTakenError{Points: 1, Message: "1 points: LATE: their incarnation was adopted before"}
	t.Run("OTLP", func(t *testing.T) { hearsSo(t, byOTLP, late) })
	byBytes := func(url string) metric.Exporter { return metric.HTTPBytesExporter(url+"/v1/exports", nil, nil) }
	t.Run("bytes", func(t *testing.T) { hearsSo(t, byBytes, metric.NotTakenError{Exports: 1}) })
}

func hearsSo(t *testing.T, exporter func(url string) metric.Exporter, wanted metric.NotTakenError) {
	ctx := context.Background()
	_, url, after := archived(t, nil)
	_, other := served(t, 2, nil)
	old, requests, failed := worker(t, metric.FirstOf(exporter(url), exporter(other)))
	requests.Add(ctx, 7)
	if err := old.ForceFlush(ctx); err != nil {
		t.Fatal(err)
	}
	after(time.Hour)
	requests.Add(ctx, 2)
	var why *metric.NotTakenError
	if err := old.ForceFlush(ctx); !errors.As(err, &why) || *why != wanted || len(*failed) != 1 {
		t.Fatal(err, *failed)
	}
	if err := old.Shutdown(ctx); !errors.As(err, &why) {
		t.Fatal(err)
	}
	fresh, requests, failed := worker(t, metric.FirstOf(exporter(url), exporter(other)))
	requests.Add(ctx, 3)
	if err := fresh.Shutdown(ctx); err != nil || len(*failed) != 0 {
		t.Fatal(err, *failed)
	}
	if total, elsewhere := row(t, url, allRequests), row(t, other, allRequests); total != "10" || elsewhere != "" {
		t.Fatal(total, elsewhere)
	}
}

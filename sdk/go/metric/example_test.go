package metric_test

import (
	"context"
	"fmt"
	"log"
	"os"

	kotskhin "kotskhin.example/sdk/go"
	"kotskhin.example/sdk/go/attribute"
	"kotskhin.example/sdk/go/metric"
)

func Example() {
	ctx, reader := context.Background(), metric.NewPeriodicReader(metric.TableExporter(os.Stdout))
	provider, err := metric.NewMeterProvider(metric.WithResource(attribute.String(metric.ServiceName, "shop")), metric.WithReader(reader))
	if err != nil {
		log.Fatal(err)
	}
	requests, err := provider.Meter("shop.orders").Int64Counter("requests", metric.WithUnit("1"))
	if err != nil {
		log.Fatal(err)
	}
	requests.Add(ctx, 1, metric.WithAttributes(attribute.String("route", "/")))
	requests.Add(ctx, 2, metric.WithAttributes(attribute.String("route", "/")))
	if err := provider.Shutdown(ctx); err != nil {
		log.Fatal(err)
	}
	// Output:
	// shop.orders requests 1
	// attributes   points  conflicts  total
	// {route="/"}       1          0  3
}

// What is refused is told to a hook, and found by its code.
func ExampleWithOnRefused() {
	provider, err := metric.NewMeterProvider(metric.WithOnRefused(func(refusal metric.Refusal) { fmt.Println(refusal) }))
	if err != nil {
		log.Fatal(err)
	}
	requests, err := provider.Meter("shop.orders").Int64Counter("requests")
	if err != nil {
		log.Fatal(err)
	}
	requests.Add(context.Background(), -1)
	fmt.Println(provider.Refused())
	// Output:
	// a recording of -1 by "requests" of "shop.orders" is refused: kotskhin: NEGATIVE: the instrument takes no value below 0
	// 1
}

// A view keeps some keys, and gives a histogram other bounds.
func ExampleWithView() {
	view := kotskhin.View{Name: "latency", Keep: []string{"route"}, Bounds: []int64{10, 100}}
	reader := metric.NewPeriodicReader(metric.TableExporter(os.Stdout))
	provider, err := metric.NewMeterProvider(metric.WithView(view), metric.WithReader(reader))
	if err != nil {
		log.Fatal(err)
	}
	latency, err := provider.Meter("shop").Int64Histogram("latency", metric.WithUnit("ms"))
	if err != nil {
		log.Fatal(err)
	}
	for user, milliseconds := range []int64{7, 250} {
		at := metric.WithAttributes(attribute.String("route", "/"), attribute.Int("user", user))
		latency.Record(context.Background(), milliseconds, at)
	}
	if err := provider.Shutdown(context.Background()); err != nil {
		log.Fatal(err)
	}
	// Output:
	// shop latency ms
	// attributes   points  conflicts  total
	// {route="/"}       1          0  count=2 sum=257 buckets=1,0,1 min=7 max=250
}

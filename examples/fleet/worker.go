// A worker in Go: worker SERVICE RECORDINGS GATEWAY.. . It pushes to the first gateway that takes what it has, and prints what it counted.
package main

import (
	"context"
	"fmt"
	"log"
	"os"
	"strconv"
	"time"

	"kotskhin.example/sdk/go/attribute"
	"kotskhin.example/sdk/go/metric"
)

func main() {
	service, gateways := os.Args[1], os.Args[3:]
	recordings, err := strconv.Atoi(os.Args[2])
	if err != nil {
		log.Fatal(err)
	}
	var exporters []metric.Exporter
	for _, gateway := range gateways {
		exporters = append(exporters, metric.HTTPBytesExporter(gateway+"/v1/exports", nil, nil))
	}
	quiet := metric.WithOnFailed(func(error) {})
	reader := metric.NewPeriodicReader(metric.FirstOf(exporters...), metric.WithInterval(200*time.Millisecond), quiet)
	provider, err := metric.NewMeterProvider(metric.WithResource(attribute.String("service.name", service)), metric.WithReader(reader))
	if err != nil {
		log.Fatal(err)
	}
	requests, err := provider.Meter("fleet").Int64Counter("requests", metric.WithUnit("1"))
	if err != nil {
		log.Fatal(err)
	}
	counted := int64(0)
	for number := 0; number < recordings; number++ {
		route := map[bool]string{true: "/", false: "/pay"}[number%2 == 1]
		requests.Add(context.Background(), int64(number%5), metric.WithAttributes(attribute.String("route", route)))
		counted += int64(number % 5)
		time.Sleep(2 * time.Millisecond)
	}
	if err := provider.Shutdown(context.Background()); err != nil {
		log.Fatal(err)
	}
	fmt.Printf("go %s %d\n", service, counted)
}

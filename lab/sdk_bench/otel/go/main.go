// What a recording costs by OpenTelemetry's names from Go: a counter, four attributes that each recording gives.
//
//	otel ROUNDS THREADS
//
// It tells the least of the rounds, in nanoseconds for each recording of all goroutines together: by the clock, and of processors. A round ends with a collection; at the
// end the total must be what was recorded.
package main

import (
	"context"
	"fmt"
	"log"
	"math"
	"os"
	"strconv"
	"strings"
	"sync"
	"syscall"
	"time"

	kotskhin "kotskhin.example/sdk/go"
	"kotskhin.example/sdk/go/attribute"
	"kotskhin.example/sdk/go/metric"
)

const times = 400000

func main() {
	rounds, _ := strconv.Atoi(os.Args[1])
	threads, _ := strconv.Atoi(os.Args[2])
	provider, err := metric.NewMeterProvider(metric.WithResource(attribute.String(metric.ServiceName, "bench")))
	must(err)
	requests, err := provider.Meter("bench").Int64Counter("requests", metric.WithUnit("1"))
	must(err)
	ctx, least, processor, table := context.Background(), 1e18, 1e18, ""
	for i := 0; i < rounds; i++ {
		began, from := time.Now(), ran()
		var hands sync.WaitGroup
		for i := 0; i < threads; i++ {
			hands.Add(1)
			go func() {
				defer hands.Done()
				for i := 0; i < times; i++ {
					requests.Add(ctx, 1, metric.WithAttributes(attribute.String("attribute.0", "value 0"), attribute.String("attribute.1", "value 0"),
						attribute.String("attribute.2", "value 0"), attribute.String("attribute.3", "value 0")))
				}
			}()
		}
		hands.Wait()
		made, err := provider.Collect()
		must(err)
		recordings := float64(threads * times)
		least = math.Min(least, float64(time.Since(began).Nanoseconds())/recordings)
		processor = math.Min(processor, float64(ran()-from)/recordings)
		table = tableOf(made)
	}
	wanted := fmt.Sprint(" ", rounds*threads*times, "\n")
	if provider.Refused() != 0 || !strings.HasSuffix(table, wanted) {
		log.Fatalf("not%s%s", wanted, table)
	}
	fmt.Printf("%-55s %7.1f %7.1f\n", fmt.Sprintf("Go: Int64Counter, %d threads", threads), least, processor)
}

// ran is how long processors ran this process so far, in nanoseconds.
func ran() int64 {
	var told syscall.Rusage
	if err := syscall.Getrusage(syscall.RUSAGE_SELF, &told); err != nil {
		log.Fatal(err)
	}
	return told.Utime.Nano() + told.Stime.Nano()
}

func tableOf(made kotskhin.Export) string {
	defer made.Close()
	gateway, err := kotskhin.OpenGateway(0)
	must(err)
	defer gateway.Close()
	_, err = gateway.Take(made)
	must(err)
	table, err := gateway.Sum("bench", "requests", "1", true)
	must(err)
	return table
}

func must(err error) {
	if err != nil {
		log.Fatal(err)
	}
}

// Command load posts what writers collected to a gateway, or the same series as text to a Pushgateway, and tells how long that took.
package main

import (
	"bytes"
	"encoding/json"
	"flag"
	"fmt"
	"io"
	"log"
	"net/http"
	"os"
	"sort"
	"sync"
	"sync/atomic"
	"time"

	kotskhin "kotskhin.example/sdk/go"
	"kotskhin.example/sdk/go/attribute"
)

var (
	kind    = flag.String("kind", "kit", "kit, otlp or text")
	url     = flag.String("url", "", "of a gateway, or of a Pushgateway")
	writers = flag.Int("writers", 50, "writers")
	points  = flag.Int("points", 1000, "points of each")
	rounds  = flag.Int("rounds", 50, "collections of each")
	hands   = flag.Int("hands", 8, "requests at a time")
	length  = flag.Duration("length", 10*time.Second, "the longest that it goes on")
)

type post struct {
	url, kind string
	body      []byte
}

func must[T any](made T, err error) T {
	if err != nil {
		log.Fatal(err)
	}
	return made
}

// collected are the exports of a writer, one for each round.
func collected(writer int) []post {
	requests := kotskhin.Instrument{Scope: "app", Name: "requests", Unit: "1", Kind: kotskhin.Counter}
	plan := must(kotskhin.PlanWith([]kotskhin.Instrument{requests}, nil, uint64(*points+1)))
	own := must(kotskhin.StartWriter(plan, "shop", must(kotskhin.UniqueInstance()), uint64(time.Now().UnixNano())))
	defer own.Close()
	var noted []kotskhin.Noted
	for n := 0; n < *points; n++ {
		set := must(kotskhin.NewAttributes(attribute.String("host", fmt.Sprintf("host-%d-%d", writer, n/4)), attribute.String("method", "GET"),
			attribute.String("route", fmt.Sprintf("/route/%d", n%4)), attribute.String("zone", "eu-1")))
		noted = append(noted, kotskhin.Noted{Number: uint64(must(own.Hold(0, set))), Value: int64(n)})
	}
	var all []post
	for round := 0; round < *rounds; round++ {
		if err := own.MeasureAll(noted, func(int, kotskhin.Refused) {}); err != nil {
			log.Fatal(err)
		}
		export := must(own.Collect(uint64(time.Now().UnixNano())))
		all = append(all, posted(writer, export))
		export.Close()
	}
	return all
}

func posted(writer int, export kotskhin.Export) post {
	switch *kind {
	case "kit":
		return post{*url + "/v1/exports", "application/vnd.kotskhin.export", must(export.Encode())}
	case "otlp":
		return post{*url + "/v1/metrics", "application/x-protobuf", must(export.OTLP())}
	}
	gateway := must(kotskhin.OpenGateway(1))
	defer gateway.Close()
	must(gateway.Take(export))
	page := must(gateway.Prometheus())
	// (what the kit says of itself is none of the series)
	var own []byte
	for _, line := range bytes.SplitAfter([]byte(page), []byte("\n")) {
		if !bytes.Contains(line, []byte("kotskhin_")) {
			own = append(own, line...)
		}
	}
	return post{fmt.Sprintf("%s/metrics/job/kotskhin/instance/%d", *url, writer), "text/plain; version=0.0.4", own}
}

func main() {
	flag.Parse()
	made := make([][]post, *writers)
	var group sync.WaitGroup
	for writer := range made {
		group.Add(1)
		go func(writer int) { defer group.Done(); made[writer] = collected(writer) }(writer)
	}
	group.Wait()
	var all []post
	for round := 0; round < *rounds; round++ {
		for writer := range made {
			all = append(all, made[writer][round])
		}
	}
	run(all)
}

func run(all []post) {
	client := &http.Client{Transport: &http.Transport{MaxIdleConnsPerHost: *hands, MaxConnsPerHost: *hands}}
	next, took := int64(-1), make([]time.Duration, len(all))
	began := time.Now()
	var group sync.WaitGroup
	for hand := 0; hand < *hands; hand++ {
		group.Add(1)
		go func() {
			defer group.Done()
			for {
				number := atomic.AddInt64(&next, 1)
				if number >= int64(len(all)) || time.Since(began) > *length {
					return
				}
				at := time.Now()
				send(client, all[number])
				took[number] = time.Since(at)
			}
		}()
	}
	group.Wait()
	tell(all, took, time.Since(began))
}

func send(client *http.Client, p post) {
	answer := must(client.Post(p.url, p.kind, bytes.NewReader(p.body)))
	defer answer.Body.Close()
	told := must(io.ReadAll(answer.Body))
	if answer.StatusCode/100 != 2 {
		log.Fatalf("%s: %s: %.300s", p.url, answer.Status, told)
	}
}

func tell(all []post, took []time.Duration, seconds time.Duration) {
	var done []float64
	size := 0
	for number, lasted := range took {
		if lasted > 0 {
			done = append(done, lasted.Seconds()*1000)
			size += len(all[number].body)
		}
	}
	sort.Float64s(done)
	at := func(part float64) float64 { return done[int(part*float64(len(done)-1))] }
	json.NewEncoder(os.Stdout).Encode(map[string]float64{
		"posts": float64(len(done)), "posts a second": float64(len(done)) / seconds.Seconds(),
		"points a second": float64(len(done)**points) / seconds.Seconds(),
		"p50 ms":          at(0.5), "p99 ms": at(0.99), "bytes a point": float64(size) / float64(len(done)**points), "seconds": seconds.Seconds(),
	})
}

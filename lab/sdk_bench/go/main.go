// What a recording costs with client_golang, whose labels are its attributes; and what points as bytes cost in the protobuf of
// client_model: a family of 100,000 counters of 4 labels, each counter with a time, beside a plain copy of as many bytes.
//
//	bench ROUNDS [threads|bytes|beside THREADS]
package main

import (
	"fmt"
	"math"
	"os"
	"strconv"
	"sync"
	"syscall"
	"time"

	"github.com/golang/protobuf/proto"
	"github.com/prometheus/client_golang/prometheus"
	model "github.com/prometheus/client_model/go"
)

const times, threads, points = 400000, 4, 100000

var rounds = 25

func tell(name string, recordings int, run func()) {
	least := 1e18
	for i := 0; i < rounds; i++ {
		began := time.Now()
		run()
		if each := float64(time.Since(began).Nanoseconds()) / float64(recordings); each < least {
			least = each
		}
	}
	fmt.Printf("%-55s %7.1f\n", name, least)
}

// The points of kit_bench, with the service and the scope once.
func family() *model.MetricFamily {
	made := &model.MetricFamily{Name: proto.String("requests"), Help: proto.String("app"), Type: model.MetricType_COUNTER.Enum()}
	for i := uint32(0); i < points; i++ {
		pair := func(name, word string, number uint32) *model.LabelPair {
			return &model.LabelPair{Name: proto.String(name), Value: proto.String(fmt.Sprint(word, number))}
		}
		labels := []*model.LabelPair{pair("host", "h", i*2654435761), pair("method", "m", i%4), pair("route", "r", i%100), pair("zone", "z", i%3)}
		counter := &model.Counter{Value: proto.Float64(float64(i))}
		made.Metric = append(made.Metric, &model.Metric{Label: labels, Counter: counter, TimestampMs: proto.Int64(200)})
	}
	return made
}

func bytes() {
	whole := family()
	var made []byte
	must := func(fault error) {
		if fault != nil {
			panic(fault)
		}
	}
	tell("protobuf in Go: 4 labels, encoded", points, func() {
		encoded, fault := proto.Marshal(whole)
		must(fault)
		made = encoded
	})
	fmt.Printf("%-55s %7.1f\n", "protobuf in Go: bytes of a point", float64(len(made))/points)
	copied := make([]byte, len(made))
	tell("protobuf in Go: a plain copy of as many bytes", points, func() { copy(copied, made) })
	tell("protobuf in Go: 4 labels, decoded", points, func() {
		var read model.MetricFamily
		must(proto.Unmarshal(made, &read))
	})
}

func main() {
	what := ""
	if len(os.Args) > 1 {
		rounds, _ = strconv.Atoi(os.Args[1])
	}
	if len(os.Args) > 2 {
		what = os.Args[2]
	}
	if what == "bytes" {
		bytes()
		return
	}
	keys := []string{"attribute_0", "attribute_1", "attribute_2", "attribute_3"}
	values := []string{"value 0", "value 0", "value 0", "value 0"}
	requests := prometheus.NewCounterVec(prometheus.CounterOpts{Name: "requests"}, keys)
	sizes := prometheus.NewHistogramVec(prometheus.HistogramOpts{Name: "sizes", Buckets: prometheus.ExponentialBuckets(1, 2, 15)}, keys)
	bound := requests.WithLabelValues(values...)
	if what == "beside" {
		hands, _ := strconv.Atoi(os.Args[3])
		beside(requests, values, hands)
		return
	}
	if what == "threads" {
		byThreads(requests, values)
		return
	}
	tell("client_golang: 4 labels, looked up by their values", times, func() {
		for i := 0; i < times; i++ {
			requests.WithLabelValues(values...).Inc()
		}
	})
	tell("client_golang: 4 labels, a held counter", times, func() {
		for i := 0; i < times; i++ {
			bound.Inc()
		}
	})
	tell("client_golang: 4 labels, a histogram, looked up", times, func() {
		for i := 0; i < times; i++ {
			sizes.WithLabelValues(values...).Observe(1)
		}
	})
}

func byThreads(requests *prometheus.CounterVec, values []string) {
	tell("client_golang: 4 labels, looked up, 4 threads", threads*times, func() {
		var hands sync.WaitGroup
		for i := 0; i < threads; i++ {
			hands.Add(1)
			go func() {
				defer hands.Done()
				for i := 0; i < times; i++ {
					requests.WithLabelValues(values...).Inc()
				}
			}()
		}
		hands.Wait()
	})
}

// ran is how long processors ran this process so far, in nanoseconds.
func ran() int64 {
	var told syscall.Rusage
	if err := syscall.Getrusage(syscall.RUSAGE_SELF, &told); err != nil {
		panic(err)
	}
	return told.Utime.Nano() + told.Stime.Nano()
}

// By so many goroutines, as otel.py asks: by the clock, and of processors.
func beside(requests *prometheus.CounterVec, values []string, many int) {
	least, processor := 1e18, 1e18
	for i := 0; i < rounds; i++ {
		began, from := time.Now(), ran()
		var hands sync.WaitGroup
		for i := 0; i < many; i++ {
			hands.Add(1)
			go func() {
				defer hands.Done()
				for i := 0; i < times; i++ {
					requests.WithLabelValues(values...).Inc()
				}
			}()
		}
		hands.Wait()
		recordings := float64(many * times)
		least = math.Min(least, float64(time.Since(began).Nanoseconds())/recordings)
		processor = math.Min(processor, float64(ran()-from)/recordings)
	}
	fmt.Printf("%-55s %7.1f %7.1f\n", fmt.Sprintf("client_golang: WithLabelValues, %d threads", many), least, processor)
}

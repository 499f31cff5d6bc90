package metric

import (
	"bytes"
	"context"
	"encoding/json"
	"errors"
	"fmt"
	"os"
	"reflect"
	"runtime"
	"sort"
	"strings"
	"sync"
	"sync/atomic"
	"testing"
	"time"

	kotskhin "kotskhin.example/sdk/go"
	"kotskhin.example/sdk/go/attribute"
)

// A step of the list, and a case.
type listed map[string]any

// The cases that all languages share of OpenTelemetry's names (tests/sdk/otel_cases.json), performed over this package.
func TestSharedCasesOfNames(t *testing.T) {
	file, err := os.ReadFile("../../../tests/sdk/otel_cases.json")
	if err != nil {
		t.Fatal(err)
	}
	var read struct{ Cases []listed }
	decoder := json.NewDecoder(bytes.NewReader(file))
	decoder.UseNumber()
	if err := decoder.Decode(&read); err != nil || len(read.Cases) == 0 {
		t.Fatal(len(read.Cases), err)
	}
	for _, one := range read.Cases {
		one := one
		t.Run(one.text("name"), func(t *testing.T) {
			if strings.Contains(fmt.Sprint(one["wants"]), "wide") {
				t.Skip("an int64 is no greater than 2^63 - 1")
			}
			performed(t, one)
		})
	}
}

func (l listed) text(name string) string { made, _ := l[name].(string); return made }
func (l listed) truth(name string) bool  { made, _ := l[name].(bool); return made }
func (l listed) list(name string) []any  { made, _ := l[name].([]any); return made }
func (l listed) number(name string, otherwise int64) int64 {
	if digits, ok := l[name].(json.Number); ok {
		return must(digits.Int64())
	}
	return otherwise
}

func must[T any](made T, err error) T {
	if err != nil {
		panic(err)
	}
	return made
}

func performed(t *testing.T, one listed) {
	run := caseOf(one)
	defer close(run.other)
	for _, step := range one.list("steps") {
		step := listed(step.(map[string]any))
		wanted := step["is"]
		if step.text("do") == "declare" {
			wanted = step["refused"]
		}
		if told := run.step(step); fmt.Sprint(told) != fmt.Sprint(wanted) {
			t.Fatalf("%v answers %v", step, told)
		}
	}
}

// A case: its provider, the calls of its instruments by their names, and what came of it.
type caseRun struct {
	provider *MeterProvider
	calls    map[string]func(value int64, options ...MeasurementOption)
	told     refusals
	// What the second thread does, one after another, as long as the case goes on.
	other chan func()
	// Whether the exporter fails, how many exports were told as failed, and the bytes of the others.
	isFailing, failures int32
	lock                sync.Mutex
	brought             [][]byte
	export              *kotskhin.Export
}

func caseOf(given listed) *caseRun {
	run := &caseRun{calls: map[string]func(int64, ...MeasurementOption){}, other: make(chan func())}
	go func() {
		runtime.LockOSThread()
		for call := range run.other {
			call()
		}
	}()
	service := given.text("service")
	if service == "" {
		service = "shop"
	}
	instance := fmt.Sprintf("00000000-0000-0000-0000-%012x", given.number("instance", 1))
	options := []Option{
		WithResource(attribute.String(ServiceName, service), attribute.String(ServiceInstanceID, instance)),
		WithOnRefused(run.told.add), WithHeldLimit(int(given.number("held", DefaultHeld))),
		WithCardinalityLimit(uint64(given.number("limit", kotskhin.DefaultLimit))),
	}
	for _, one := range given.list("views") {
		options = append(options, WithView(viewOf(listed(one.(map[string]any)))))
	}
	if given.truth("reader") {
		failed := WithOnFailed(func(error) { atomic.AddInt32(&run.failures, 1) })
		options = append(options, WithReader(NewPeriodicReader(ExporterFunc(run.bring), WithInterval(24*time.Hour), failed)))
	}
	run.provider = must(NewMeterProvider(options...))
	return run
}

func viewOf(view listed) kotskhin.View {
	made := kotskhin.View{Name: view.text("name"), Rename: view.text("rename")}
	if scope, ok := view["scope"].(string); ok {
		made.Scope = &scope
	}
	if kind, ok := kinds[view.text("kind")]; ok {
		made.Kind = &kind
	}
	for _, key := range view.list("keep") {
		made.Keep = append(made.Keep, key.(string))
	}
	switch of := view["aggregation"].(type) {
	case string:
		made.Aggregation = map[string]kotskhin.Aggregation{"drop": kotskhin.Drop}[of]
	case map[string]any:
		made.Bounds = numbers(of["buckets"])
	}
	return made
}

var kinds = map[string]kotskhin.Kind{
	"counter": kotskhin.Counter, "up_down": kotskhin.UpDown, "gauge": kotskhin.Gauge, "histogram": kotskhin.Histogram,
}

func numbers(of any) []int64 {
	var made []int64
	for _, number := range of.([]any) {
		made = append(made, must(number.(json.Number).Int64()))
	}
	return made
}

func (run *caseRun) bring(_ context.Context, export kotskhin.Export) error {
	if atomic.LoadInt32(&run.isFailing) != 0 {
		return errors.New("nobody is there")
	}
	run.lock.Lock()
	defer run.lock.Unlock()
	run.brought = append(run.brought, must(export.Encode()))
	return nil
}

// step performs a step, and gives what it answers.
func (run *caseRun) step(step listed) any {
	return map[string]func(listed) any{
		"declare": run.declare, "record": run.record, "collect": run.collect, "head": run.head, "streams": run.streams, "table": run.table,
		"value": run.value, "values": run.values, "refused": run.refused, "exported": run.exported,
		"start": func(listed) any { return answered(run.provider.Start()) },
		"flush": func(step listed) any { return run.fails(step, run.provider.ForceFlush(ctx)) },
		"shutdown": func(step listed) any {
			return run.fails(step, run.provider.Shutdown(ctx))
		},
		"failing": func(step listed) any {
			atomic.StoreInt32(&run.isFailing, map[bool]int32{true: 1}[step.truth("is")])
			return step["is"]
		},
		"failed": func(listed) any { return atomic.LoadInt32(&run.failures) },
	}[step.text("do")](step)
}

func answered(err error) any {
	if err != nil {
		return err
	}
	return nil
}

func (run *caseRun) fails(step listed, err error) any {
	if (err != nil) != step.truth("fails") {
		return fmt.Sprint("failed: ", err)
	}
	return nil
}

func (run *caseRun) declare(step listed) any {
	meter, name := run.provider.Meter(step.text("scope")), step.text("name")
	options := []InstrumentOption{WithUnit(step.text("unit"))}
	if bounds, ok := step["bounds"]; ok {
		options = append(options, WithExplicitBucketBoundaries(numbers(bounds)...))
	}
	var err error
	var call func(value int64, options ...MeasurementOption)
	switch step.text("kind") {
	case "counter":
		made, fault := meter.Int64Counter(name, options...)
		call, err = func(value int64, at ...MeasurementOption) { made.Add(ctx, value, at...) }, fault
	case "up_down":
		made, fault := meter.Int64UpDownCounter(name, options...)
		call, err = func(value int64, at ...MeasurementOption) { made.Add(ctx, value, at...) }, fault
	case "gauge":
		made, fault := meter.Int64Gauge(name, options...)
		call, err = func(value int64, at ...MeasurementOption) { made.Record(ctx, value, at...) }, fault
	default:
		made, fault := meter.Int64Histogram(name, options...)
		call, err = func(value int64, at ...MeasurementOption) { made.Record(ctx, value, at...) }, fault
	}
	if err != nil {
		return reasonOf(err)
	}
	run.calls[step.text("as")] = call
	return nil
}

// reasonOf is why something was refused, by the list's name.
func reasonOf(err error) string {
	var refused kotskhin.Refused
	if errors.Is(err, ErrStarted) {
		return "DECLARED_LATE"
	}
	if errors.Is(err, ErrCardinalityLimit) {
		return "CARDINALITY_LIMIT"
	}
	if errors.As(err, &refused) {
		return strings.TrimPrefix(refused.Code.Error(), "kotskhin: ")
	}
	return err.Error()
}

func pairsOf(of []any) []attribute.KeyValue {
	var made []attribute.KeyValue
	for _, pair := range of {
		key := pair.([]any)[0].(string)
		switch value := pair.([]any)[1].(type) {
		case bool:
			made = append(made, attribute.Bool(key, value))
		case json.Number:
			made = append(made, attribute.Int64(key, must(value.Int64())))
		default:
			made = append(made, attribute.String(key, value.(string)))
		}
	}
	return made
}

func (run *caseRun) record(step listed) any {
	call, value, at := run.calls[step.text("by")], step.number("value", 0), pairsOf(step.list("at"))
	often := func() {
		for i := int64(0); i < step.number("times", 1); i++ {
			call(value, WithAttributes(at...))
		}
	}
	var group sync.WaitGroup
	for i := int64(0); i < step.number("threads", 1); i++ {
		group.Add(1)
		thread := func() {
			defer group.Done()
			often()
		}
		if step.text("on") == "other" {
			run.other <- thread
		} else {
			go thread()
		}
	}
	group.Wait()
	return nil
}

func (run *caseRun) collect(step listed) any {
	made, err := run.provider.Collect()
	if (err != nil) != step.truth("nothing") {
		return fmt.Sprint("collected: ", err)
	}
	run.export = &made
	return nil
}

func (run *caseRun) head(listed) any {
	told := must(run.export.Head())
	return map[string]any{"service": told.Service, "instance": told.Instance.Low, "points": told.Points}
}

func (run *caseRun) gateway() kotskhin.Gateway {
	made := must(kotskhin.OpenGateway(0))
	must(made.Take(*run.export))
	return made
}

func (run *caseRun) streams(listed) any {
	made := []any{}
	for _, stream := range must(must(run.gateway().Streams()).All()) {
		made = append(made, []string{stream.Scope, stream.Name, stream.Unit})
	}
	return made
}

func askOf(of []any) kotskhin.Ask {
	scope, name, unit := of[0].(string), of[1].(string), of[2].(string)
	switch shape := of[3].(type) {
	case map[string]any:
		return must(kotskhin.AskHistogram(scope, name, unit, numbers(shape["bounds"])...))
	default:
		if shape == "gauge" {
			return must(kotskhin.AskGauge(scope, name, unit))
		}
		return must(kotskhin.AskSum(scope, name, unit, shape == "monotonic sum"))
	}
}

func (run *caseRun) table(step listed) any { return must(run.gateway().Table(askOf(step.list("of")))) }

func (run *caseRun) values(step listed) any {
	rows, made := must(run.gateway().Rows(askOf(step.list("of")))), []any{}
	for _, row := range must(rows.All()) {
		made = append(made, row.Newest.Value)
	}
	return made
}

func (run *caseRun) value(step listed) any { return run.values(step).([]any)[0] }

func (run *caseRun) refused(step listed) any {
	run.told.lock.Lock()
	defer run.told.lock.Unlock()
	seen, told := map[string]bool{}, []any{}
	for _, one := range run.told.list {
		if reason := reasonOf(one.Err); !seen[reason] {
			seen[reason], told = true, append(told, reason)
		}
	}
	run.told.list = nil
	sort.Slice(told, func(i, j int) bool { return told[i].(string) < told[j].(string) })
	if !reflect.DeepEqual(told, step.list("by")) {
		return told
	}
	return run.provider.Refused()
}

func (run *caseRun) exported(listed) any {
	run.lock.Lock()
	defer run.lock.Unlock()
	if len(run.brought) > 0 {
		made := must(kotskhin.DecodeExport(run.brought[len(run.brought)-1]))
		run.export = &made
	}
	return len(run.brought)
}

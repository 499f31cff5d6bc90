package otlp

import (
	"encoding/binary"
	"fmt"
	"math"
	"strings"
	"testing"

	kotskhin "kotskhin.example/sdk/go"
	"kotskhin.example/sdk/go/attribute"
)

const uuid = "00000000-0000-0000-0000-000000000007"

// Messages of OTLP, made by hand.

func pair(number int, key, value string) []byte {
	return appendBytes(nil, number, appendBytes(appendBytes(nil, 1, []byte(key)), 2, appendBytes(nil, 1, []byte(value))))
}

func resource(service, instance string, scopes ...[]byte) []byte {
	var attributes []byte
	if service != "" {
		attributes = append(attributes, pair(1, "service.name", service)...)
	}
	if instance != "" {
		attributes = append(attributes, pair(1, "service.instance.id", instance)...)
	}
	made := appendBytes(nil, resourceHead, attributes)
	for _, scope := range scopes {
		made = appendBytes(made, resourceScopes, scope)
	}
	return appendBytes(nil, requestResources, made)
}

func scope(name, version string, metrics ...[]byte) []byte {
	made := appendBytes(nil, scopeHead, appendBytes(appendBytes(nil, scopeName, []byte(name)), 2, []byte(version)))
	for _, metric := range metrics {
		made = appendBytes(made, scopeMetrics, metric)
	}
	return made
}

func metric(name string, kind int, data []byte) []byte {
	return appendBytes(appendBytes(nil, metricName, []byte(name)), kind, data)
}

func fixed(to []byte, number int, bits uint64) []byte {
	var bytes [8]byte
	binary.LittleEndian.PutUint64(bytes[:], bits)
	return append(appendNumber(to, uint64(number)<<3|wireEight), bytes[:]...)
}

func whole(value int64) []byte { return fixed(fixed(fixed(nil, 2, 100), 3, 200), 6, uint64(value)) }

func double(value float64) []byte {
	return fixed(fixed(fixed(nil, 2, 100), 3, 200), 4, math.Float64bits(value))
}

// A sum that rises, of points: cumulative where temporality is 2.
func sum(temporality uint64, points ...[]byte) []byte {
	var made []byte
	for _, point := range points {
		made = appendBytes(made, dataPoints, point)
	}
	return appendWhole(appendWhole(made, 2, temporality), 3, 1)
}

func total(t *testing.T, read *Read, name string) string {
	t.Helper()
	gateway, err := kotskhin.OpenGateway(1)
	if err != nil {
		t.Fatal(err)
	}
	defer gateway.Close()
	for _, export := range read.Exports {
		if _, err := gateway.Take(export); err != nil {
			t.Fatal(err)
		}
	}
	table, err := gateway.Sum("app", name, "", true)
	if err != nil {
		t.Fatal(err)
	}
	words := strings.Fields(table)
	return words[len(words)-1]
}

func read(t *testing.T, request []byte) *Read {
	t.Helper()
	made, err := Of(request)
	if err != nil {
		t.Fatal(err)
	}
	return made
}

func TestARequestIsReadWhole(t *testing.T) {
	made := read(t, resource("shop", uuid, scope("app", "", metric("requests", metricSum, sum(2, whole(7))))))
	defer made.Close()
	if made.Refused != 0 || made.Why() != "" || len(made.Exports) != 1 || total(t, made, "requests") != "7" {
		t.Fatal(made, total(t, made, "requests"))
	}
	if empty := read(t, nil); len(empty.Exports) != 0 || empty.Refused != 0 {
		t.Fatal(empty)
	}
}

// What has no counterpart is left out, counted and told; the rest is read.
func TestWhatHasNoCounterpartIsLeftOut(t *testing.T) {
	good := metric("requests", metricSum, sum(2, whole(7)))
	for name, test := range map[string]struct {
		bad     []byte
		refused int
		why     string
	}{
		"delta":       {metric("bad", metricSum, sum(1, whole(1), whole(2))), 2, "2 points: DELTA: "},
		"temporality": {metric("bad", metricSum, sum(0, whole(1))), 1, "1 points: NO_TEMPORALITY: "},
		"exponential": {metric("bad", 10, appendBytes(nil, dataPoints, []byte{})), 1, "1 points: EXPONENTIAL_HISTOGRAM: "},
		"summary":     {metric("bad", metricSummary, appendBytes(nil, dataPoints, []byte{})), 1, "1 points: SUMMARY: "},
		"double":      {metric("bad", metricGauge, sum(2, double(0.5))[:len(sum(2, double(0.5)))-4]), 1, "1 points: FLOAT_VALUE: "},
		"no start":    {metric("bad", metricSum, sum(2, fixed(fixed(nil, 3, 200), 6, 1))), 1, "1 points: UNKNOWN_START: "},
		"no data":     {appendBytes(nil, metricName, []byte("bad")), 0, "0 points: NO_DATA: "},
		"twice":       {metric("bad", metricSum, sum(2, whole(1), whole(2))), 2, "2 points: NO_EXPORT: "},
	} {
		made := read(t, resource("shop", uuid, scope("app", "", test.bad, good)))
		if made.Refused != test.refused || !strings.HasPrefix(made.Why(), test.why) || total(t, made, "requests") != "7" {
			t.Errorf("%s: %d, %q, %s", name, made.Refused, made.Why(), total(t, made, "requests"))
		}
		made.Close()
	}
}

// Of a metric the points are looked at one by one.
func TestPointsAreLeftOutOneByOne(t *testing.T) {
	other := append(whole(5), pair(7, "route", "/")...)
	points := sum(2, double(1), other, appendWhole(whole(1), 8, 1))
	made := read(t, resource("shop", uuid, scope("app", "", metric("requests", metricSum, points))))
	defer made.Close()
	why := made.Why()
	isTold := strings.Contains(why, "NO_RECORDED_VALUE") && strings.Contains(why, "FLOAT_VALUE")
	if made.Refused != 2 || !isTold || total(t, made, "requests") != "5" {
		t.Fatal(made.Refused, why, total(t, made, "requests"))
	}
}

func TestResourcesAndScopesAreLeftOut(t *testing.T) {
	good := metric("requests", metricSum, sum(2, whole(7)))
	for name, test := range map[string]struct {
		request []byte
		refused int
		why     string
	}{
		"no service":  {resource("", uuid, scope("app", "", good)), 1, "NO_SERVICE"},
		"no instance": {resource("till", "", scope("app", "", good, good)), 2, "NO_INSTANCE"},
		"no uuid":     {resource("till", "7", scope("app", "", good)), 1, "NOT_UUID"},
		"two metrics": {resource("till", uuid, scope("app", "", good, good)), 2, "NO_EXPORT"},
	} {
		made := read(t, append(test.request, resource("shop", uuid, scope("app", "", good))...))
		if made.Refused != test.refused || !strings.Contains(made.Why(), test.why) || len(made.Exports) != 1 || total(t, made, "requests") != "7" {
			t.Errorf("%s: %d, %q, %s", name, made.Refused, made.Why(), total(t, made, "requests"))
		}
		made.Close()
	}
	other := metric("others", metricSum, sum(2, whole(1)))
	more := metric("more", metricSum, sum(2, whole(3)))
	made := read(t, resource("shop", uuid, scope("app", "1", good), scope("app", "2", other, other), scope("app", "1", more)))
	defer made.Close()
	isRead := total(t, made, "requests") == "7" && total(t, made, "more") == "3"
	if made.Refused != 2 || !strings.Contains(made.Why(), "SCOPE_TWICE") || !isRead {
		t.Fatal(made.Refused, made.Why())
	}
}

func TestOtherBytesAreNoRequest(t *testing.T) {
	good := resource("shop", uuid, scope("app", "", metric("requests", metricSum, sum(2, whole(7)))))
	for _, bytes := range [][]byte{{0}, good[:len(good)-1], []byte("no request"), appendBytes(nil, requestResources, []byte{8})} {
		if made, err := Of(bytes); err == nil {
			t.Error(bytes, made)
		}
	}
}

// A metric whose name is too long is left out, and so is all of a scope or a service; the rest is read.
func TestLongTextsAreLeftOut(t *testing.T) {
	long, good := strings.Repeat("a", 1025), metric("requests", metricSum, sum(2, whole(7)))
	named := func(name string) []byte { return metric(name, metricSum, sum(2, whole(1))) }
	for name, test := range map[string]struct {
		request []byte
		refused int
	}{
		"metric":  {resource("shop", uuid, scope("app", "", named(long), good)), 1},
		"scope":   {resource("shop", uuid, scope(long, "", named("m"), named("n")), scope("app", "", good)), 2},
		"service": {append(resource(long, uuid, scope("app", "", named("m"))), resource("shop", uuid, scope("app", "", good))...), 1},
		"none":    {resource("shop", uuid, scope("app", "", named(long[1:]), good)), 0},
	} {
		made := read(t, test.request)
		isTold := strings.Contains(made.Why(), "TOO_LONG_TEXT") == (test.refused > 0)
		if made.Refused != test.refused || !isTold || total(t, made, "requests") != "7" {
			t.Errorf("%s: %d, %q, %s", name, made.Refused, made.Why(), total(t, made, "requests"))
		}
		made.Close()
	}
}

// A point of more than 128 attributes is left out alone.
func TestManyAttributesAreLeftOut(t *testing.T) {
	with := func(count int) []byte {
		made := whole(5)
		for n := 0; n < count; n++ {
			made = append(made, pair(7, fmt.Sprint("key", n), "value")...)
		}
		return made
	}
	made := read(t, resource("shop", uuid, scope("app", "", metric("requests", metricSum, sum(2, with(129), with(128))))))
	defer made.Close()
	if made.Refused != 1 || !strings.Contains(made.Why(), "TOO_MANY_ATTRIBUTES") || total(t, made, "requests") != "5" {
		t.Fatal(made.Refused, made.Why(), total(t, made, "requests"))
	}
}

// What the kit itself writes is read whole, and the parts of it are the same.
func TestExportsComeBackByTheirParts(t *testing.T) {
	plan, err := kotskhin.NewPlan(
		kotskhin.Instrument{Scope: "app", Name: "requests", Kind: kotskhin.Counter},
		kotskhin.Instrument{Scope: "app", Name: "latency", Unit: "ms", Kind: kotskhin.Histogram},
		kotskhin.Instrument{Scope: "app", Name: "heat", Unit: "C", Kind: kotskhin.Gauge},
	)
	if err != nil {
		t.Fatal(err)
	}
	writer, err := kotskhin.StartWriter(plan, "shop", kotskhin.Instance{Low: 7}, 100)
	if err != nil {
		t.Fatal(err)
	}
	set, _ := kotskhin.NewAttributes(attribute.String("route", "/"), attribute.Int("status", 200), attribute.Bool("ok", true))
	for instrument := 0; instrument < 3; instrument++ {
		if err := writer.Measure(instrument, set, 7); err != nil {
			t.Fatal(err)
		}
	}
	export, err := writer.Collect(200)
	if err != nil {
		t.Fatal(err)
	}
	request, err := export.OTLP()
	if err != nil {
		t.Fatal(err)
	}
	parts := &Read{}
	if err := forEachMessage(request, requestResources, parts.addResource); err != nil || parts.Refused != 0 || len(parts.Exports) != 1 {
		t.Fatal(err, parts)
	}
	wanted, _ := export.Encode()
	if found, err := parts.Exports[0].Encode(); err != nil || string(found) != string(wanted) {
		t.Fatal(err, found)
	}
}

func TestAnswers(t *testing.T) {
	if Taken(0, "") != nil || string(Taken(3, "why")) != "\x0a\x07\x08\x03\x12\x03why" {
		t.Fatalf("%q", Taken(3, "why"))
	}
	if found := string(Status(503, "why")); found != "\x08\x0e\x12\x03why" {
		t.Fatalf("%q", found)
	}
}

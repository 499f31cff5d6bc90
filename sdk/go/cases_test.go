package kotskhin

import (
	"bytes"
	"encoding/hex"
	"encoding/json"
	"errors"
	"fmt"
	"math"
	"math/big"
	"os"
	"reflect"
	"runtime"
	"strconv"
	"strings"
	"testing"

	"kotskhin.example/sdk/go/attribute"
)

// The cases that all languages share (tests/sdk/cases.json), performed over this package.
func TestCases(t *testing.T) {
	file := must[[]byte](t)(os.ReadFile("../../tests/sdk/cases.json"))
	var list struct {
		Cases []struct {
			Name  string
			Steps []step
		}
	}
	decoder := json.NewDecoder(bytes.NewReader(file))
	decoder.UseNumber()
	if err := decoder.Decode(&list); err != nil {
		t.Fatal(err)
	}
	for _, one := range list.Cases {
		steps := one.Steps
		t.Run(one.Name, func(t *testing.T) {
			run := run{t: t, things: map[string]any{}}
			for _, step := range steps {
				if fault := run.step(step); fault != "" {
					t.Fatalf("%.300v: %s", step, fault)
				}
			}
		})
	}
}

type step map[string]any

type run struct {
	t      *testing.T
	things map[string]any
}

// errNoType says that a number is none of the type that the call takes: it can't be given.
var errNoType = errors.New("a number of no such type")

// step performs a step, and tells what is other than it says.
func (r *run) step(s step) string {
	told, err := r.do(s)
	isOutOfRange := errors.Is(err, errNoType) || errors.Is(err, ErrRange)
	if s["out_of_range"] == true {
		if !isOutOfRange {
			return fmt.Sprint("it is not out of range: ", err)
		}
		return ""
	}
	if wanted, ok := s["refused"].(map[string]any); ok {
		return refusedAs(wanted, err)
	}
	if err != nil {
		return err.Error()
	}
	if is, ok := s["is"]; ok && !reflect.DeepEqual(plain(told), plain(is)) {
		return fmt.Sprintf("it answers %v", plain(told))
	}
	return ""
}

func refusedAs(wanted map[string]any, err error) string {
	var why Refused
	if !errors.As(err, &why) {
		return fmt.Sprintf("it is refused as %v, not %v", err, wanted)
	}
	code := codes[why.Code]
	told := map[string]any{"code": code.name}
	for i, word := range []string{"place", "second"} {
		if i < len(code.places) && (why.Code != ErrNotText || wanted["place"] != nil) {
			told[word] = []uint64{why.Place, why.Second}[i]
		}
	}
	if !reflect.DeepEqual(plain(told), plain(wanted)) || !errors.Is(err, why.Code) {
		return fmt.Sprintf("it is refused as %v, not %v", told, wanted)
	}
	return ""
}

// plain is a value as JSON has it, where a text that is repeated is that text.
func plain(of any) any {
	switch of := of.(type) {
	case map[string]any:
		if repeat, ok := of["repeat"]; ok {
			return text_(map[string]any{"repeat": repeat})
		}
		made := map[string]any{}
		for key, value := range of {
			made[key] = plain(value)
		}
		return made
	case []any:
		made := []any{}
		for _, value := range of {
			made = append(made, plain(value))
		}
		return made
	case string, bool, nil:
		return of
	case fmt.Stringer:
		return of.String()
	default:
		return fmt.Sprint(of)
	}
}

func text_(of any) string {
	if object, ok := of.(map[string]any); ok {
		if repeat, ok := object["repeat"].([]any); ok {
			return strings.Repeat(repeat[0].(string), int(mustInt(repeat[1])))
		}
		made, _ := hex.DecodeString(object["hex"].(string))
		return string(made)
	}
	return of.(string)
}

func mustInt(of any) int64 {
	made, err := of.(json.Number).Int64()
	if err != nil {
		panic(err)
	}
	return made
}

// signed and unsigned are a number of a type, or it is none of that type.
func signed(of any, bits int) (int64, error) {
	made, err := strconv.ParseInt(of.(json.Number).String(), 10, bits)
	if err != nil {
		return 0, errNoType
	}
	return made, nil
}

func unsigned(of any, bits int) (uint64, error) {
	made, err := strconv.ParseUint(of.(json.Number).String(), 10, bits)
	if err != nil {
		return 0, errNoType
	}
	return made, nil
}

func instance(of any) (Instance, error) {
	whole, ok := new(big.Int).SetString(of.(json.Number).String(), 10)
	if !ok || whole.Sign() < 0 || whole.BitLen() > 128 {
		return Instance{}, errNoType
	}
	high := new(big.Int).Rsh(whole, 64).Uint64()
	return Instance{high, new(big.Int).And(whole, new(big.Int).SetUint64(math.MaxUint64)).Uint64()}, nil
}

func whole(of Instance) *big.Int {
	made := new(big.Int).Lsh(new(big.Int).SetUint64(of.High), 64)
	return made.Or(made, new(big.Int).SetUint64(of.Low))
}

func pairsFor(of any) ([]attribute.KeyValue, error) {
	var made []attribute.KeyValue
	for _, pair := range of.([]any) {
		key := text_(pair.([]any)[0])
		switch value := pair.([]any)[1].(type) {
		case bool:
			made = append(made, attribute.Bool(key, value))
		case json.Number:
			whole, err := signed(value, 64)
			if err != nil {
				return nil, err
			}
			made = append(made, attribute.Int64(key, whole))
		default:
			made = append(made, attribute.String(key, text_(value)))
		}
	}
	return made, nil
}

// listed are pairs as the list has them.
func listed(pairs []attribute.KeyValue) []any {
	made := []any{}
	for _, pair := range pairs {
		switch pair.Value.Type() {
		case attribute.BOOL:
			made = append(made, []any{string(pair.Key), pair.Value.AsBool()})
		case attribute.INT64:
			made = append(made, []any{string(pair.Key), json.Number(pair.Value.Emit())})
		default:
			made = append(made, []any{string(pair.Key), pair.Value.AsString()})
		}
	}
	return made
}

var kindsByName = map[string]Kind{"counter": Counter, "up_down": UpDown, "gauge": Gauge, "histogram": Histogram}
var aggregations = map[string]Aggregation{"default": AsKind, "sum": AsSum, "last": AsLastValue, "drop": Drop}

func kindFor(of any) Kind {
	if name, ok := of.(string); ok {
		return kindsByName[name]
	}
	return Kind(mustInt(of))
}

func boundsFor(of any) ([]int64, error) {
	made := []int64{}
	for _, item := range of.([]any) {
		bound, err := signed(item, 64)
		if err != nil {
			return nil, err
		}
		made = append(made, bound)
	}
	return made, nil
}

func textsFor(of any) []string {
	made := []string{}
	for _, item := range of.([]any) {
		made = append(made, text_(item))
	}
	return made
}

func viewFor(of map[string]any) (view View, err error) {
	for word, to := range map[string]*string{"name": &view.Name, "rename": &view.Rename} {
		if given, ok := of[word]; ok {
			*to = text_(given)
		}
	}
	if given, ok := of["scope"]; ok {
		scope := text_(given)
		view.Scope = &scope
	}
	if given, ok := of["kind"]; ok {
		kind := kindFor(given)
		view.Kind = &kind
	}
	if given, ok := of["keep"]; ok {
		view.Keep = textsFor(given)
	}
	switch given := of["aggregation"].(type) {
	case string:
		view.Aggregation = aggregations[given]
	case json.Number:
		view.Aggregation = Aggregation(mustInt(given))
	case map[string]any:
		view.Bounds, err = boundsFor(given["buckets"])
	}
	return view, err
}

func (r *run) ask(of map[string]any) (ask Ask, err error) {
	if number, ok := of["stream"]; ok {
		streams, err := r.things[of["streams_of"].(string)].(interface{ Streams() (Streams, error) }).Streams()
		if err != nil {
			return Ask{}, err
		}
		ask, err = AskStream(streams, int(mustInt(number)))
		if err != nil {
			return Ask{}, err
		}
	} else {
		scope, name, unit := text_(of["scope"]), text_(of["name"]), text_(of["unit"])
		switch shape := of["shape"].(type) {
		case map[string]any:
			bounds, err := boundsFor(shape["bounds"])
			if err != nil {
				return Ask{}, err
			}
			ask, err = AskHistogram(scope, name, unit, bounds...)
			if err != nil {
				return Ask{}, err
			}
		default:
			if shape == "gauge" {
				ask, err = AskGauge(scope, name, unit)
			} else {
				ask, err = AskSum(scope, name, unit, shape == "monotonic sum")
			}
		}
	}
	if given, ok := of["service"]; err == nil && ok {
		err = ask.Service(text_(given))
	}
	if given, ok := of["only"]; err == nil && ok {
		var pairs []attribute.KeyValue
		if pairs, err = pairsFor(given); err == nil {
			err = ask.Only(pairs...)
		}
	}
	if given, ok := of["keep"]; err == nil && ok {
		err = ask.Keep(textsFor(given)...)
	}
	return ask, err
}

func (r *run) bytes(of any) []byte {
	if object, ok := of.(map[string]any); ok {
		made, _ := hex.DecodeString(object["hex"].(string))
		return made
	}
	return r.things[of.(string)].([]byte)
}

func (r *run) keep(s step, made any, err error) (any, error) {
	if name, ok := s["as"].(string); ok && err == nil {
		r.things[name] = made
	}
	return nil, err
}

// What records: a writer, a seat, and a recorder but for hold.
type records interface {
	Measure(instrument int, a Attributes, value int64) error
	MeasureHeld(number int, value int64) error
}
type holds interface {
	Hold(instrument int, a Attributes) (int, error)
}
type takesIn interface {
	TakeIn(r Recorder, most int) (Taken, error)
}

func (r *run) do(s step) (any, error) {
	thing := func(word string) any { return r.things[s[word].(string)] }
	switch s["do"] {
	case "plan":
		return r.plan(s)
	case "set":
		pairs, err := pairsFor(s["pairs"])
		if err != nil {
			return nil, err
		}
		made, err := NewAttributes(pairs...)
		return r.keep(s, made, err)
	case "pairs":
		pairs, err := thing("of").(Attributes).Pairs()
		return listed(pairs), err
	case "writer", "restart", "collect", "shutdown":
		return r.timed(s)
	case "measure", "measure_held", "hold", "recorder", "take_in", "length", "clear", "share", "split", "fill":
		return r.recording(s)
	case "threads":
		return nil, r.threads(s)
	case "export":
		head, err := thing("of").(Export).Head()
		return map[string]any{
			"service": head.Service, "instance": whole(head.Instance), "start": head.Start, "time": head.Time, "points": head.Points,
		}, err
	case "rows", "row", "streams":
		return r.asking(s)
	case "send", "hand", "message":
		return r.gossip(s)
	case "archive", "adopt", "archive_export", "seal", "archive_read":
		return r.archiving(s)
	case "encode", "decode", "bytes", "bytes_are", "decode_often":
		return r.encoding(s)
	case "incarnations", "services", "otlp", "of_otlp", "page":
		return r.formats(s)
	case "close":
		return nil, thing("of").(interface{ Close() error }).Close()
	default:
		return r.gateways(s)
	}
}

func (r *run) plan(s step) (any, error) {
	var instruments []Instrument
	for _, one := range s["instruments"].([]any) {
		words := one.([]any)
		instruments = append(instruments, Instrument{text_(words[0]), text_(words[1]), text_(words[2]), kindFor(words[3])})
	}
	var views []View
	if list, ok := s["views"].([]any); ok {
		for _, one := range list {
			view, err := viewFor(one.(map[string]any))
			if err != nil {
				return nil, err
			}
			views = append(views, view)
		}
	}
	limit := uint64(DefaultLimit)
	if given, ok := s["limit"]; ok {
		var err error
		if limit, err = unsigned(given, 64); err != nil {
			return nil, err
		}
	}
	made, err := PlanWith(instruments, views, limit)
	return r.keep(s, made, err)
}

func (r *run) timed(s step) (any, error) {
	if s["do"] == "writer" {
		id, err := instance(s["instance"])
		if err != nil {
			return nil, err
		}
		start, err := unsigned(s["start"], 64)
		if err != nil {
			return nil, err
		}
		made, err := StartWriter(r.things[s["plan"].(string)].(Plan), text_(s["service"]), id, start)
		return r.keep(s, made, err)
	}
	by := r.things[s["by"].(string)]
	word := map[bool]string{true: "start", false: "time"}[s["do"] == "restart"]
	time, err := unsigned(s[word], 64)
	if err != nil {
		return nil, err
	}
	switch s["do"] {
	case "restart":
		return nil, by.(Writer).Restart(time)
	case "shutdown":
		made, err := by.(Writer).Shutdown(time)
		return r.keep(s, made, err)
	default:
		made, err := by.(interface{ Collect(uint64) (Export, error) }).Collect(time)
		return r.keep(s, made, err)
	}
}

func (r *run) recording(s step) (any, error) {
	number := func(word string) (int, error) {
		made, err := signed(s[word], 64)
		return int(made), err
	}
	thing := func(word string) any { return r.things[s[word].(string)] }
	switch s["do"] {
	case "measure", "measure_held":
		value, err := signed(s["value"], 64)
		if err != nil {
			return nil, err
		}
		if s["do"] == "measure_held" {
			held, err := number("number")
			if err != nil {
				return nil, err
			}
			return nil, thing("by").(records).MeasureHeld(held, value)
		}
		instrument, err := number("instrument")
		if err != nil {
			return nil, err
		}
		return nil, thing("by").(records).Measure(instrument, thing("set").(Attributes), value)
	case "hold":
		instrument, err := number("instrument")
		if err != nil {
			return nil, err
		}
		return one(thing("by").(holds).Hold(instrument, thing("set").(Attributes)))
	case "recorder":
		capacity, err := number("capacity")
		if err != nil {
			return nil, err
		}
		made, err := NewRecorder(capacity)
		return r.keep(s, made, err)
	case "length":
		return one(thing("of").(Recorder).Len())
	case "clear":
		return nil, thing("of").(Recorder).Clear()
	case "share":
		made, err := thing("by").(Writer).Share()
		return r.keep(s, made, err)
	case "split":
		times := 1
		if given, ok := s["times"]; ok {
			times = int(mustInt(given))
		}
		for ; times > 1; times-- {
			if _, err := thing("by").(Seat).Split(); err != nil {
				return nil, err
			}
		}
		made, err := thing("by").(Seat).Split()
		return r.keep(s, made, err)
	case "fill":
		for i := int64(0); i < mustInt(s["sets"]); i++ {
			set, err := NewAttributes(attribute.Int64(s["key"].(string), i))
			if err == nil {
				err = thing("by").(records).Measure(int(mustInt(s["instrument"])), set, 1)
			}
			if err != nil {
				return nil, err
			}
			set.Close()
		}
		return nil, nil
	default:
		return r.takeIn(s)
	}
}

func one[T any](made T, err error) (any, error) { return made, err }

func (r *run) takeIn(s step) (any, error) {
	most := math.MaxInt
	if given, ok := s["most"]; ok {
		most = int(mustInt(given))
	}
	told, err := r.things[s["by"].(string)].(takesIn).TakeIn(r.things[s["recorder"].(string)].(Recorder), most)
	made := map[string]any{"recorded": told.Recorded, "refused": told.Refused}
	var why Refused
	if errors.As(told.Why, &why) {
		made["first"], made["code"] = told.First, codes[why.Code].name
		if len(codes[why.Code].places) > 0 {
			made["place"] = why.Place
		}
	}
	return made, err
}

func (r *run) threads(s step) error {
	threads, each, held := int(mustInt(s["threads"])), int(mustInt(s["each"])), int(mustInt(s["number"]))
	instrument, set := int(mustInt(s["instrument"])), r.things[s["set"].(string)].(Attributes)
	// Each has its seat before any of them records: the writer is busy then, and splits nothing.
	hands := make([]hand, threads)
	for i := range hands {
		var err error
		if hands[i], err = r.hand(s); err != nil {
			return err
		}
	}
	faults := make(chan error, threads)
	for _, own := range hands {
		go func(h hand) { faults <- recordOften(h.by, h.full, each, held, instrument, set) }(own)
	}
	var fault error
	for range hands {
		if err := <-faults; err != nil {
			fault = err
		}
	}
	return fault
}

// A hand is what a thread records with, and what is done once that is full.
type hand struct {
	by   records
	full func() (bool, error)
}

func (r *run) hand(s step) (hand, error) {
	if s["with"] == "seat" {
		seat, err := r.things[s["by"].(string)].(Seat).Split()
		return hand{seat, func() (bool, error) { return true, nil }}, err
	}
	recorder, err := NewRecorder(int(mustInt(s["capacity"])))
	return hand{recorder, func() (bool, error) {
		told, err := r.things[s["by"].(string)].(Writer).TakeIn(recorder, math.MaxInt)
		return err == nil && told.Refused == 0, err
	}}, err
}

func recordOften(by records, full func() (bool, error), each, held, instrument int, set Attributes) error {
	for turn := 0; turn < each; {
		var err error
		if turn%2 == 1 {
			err = by.MeasureHeld(held, 1)
		} else {
			err = by.Measure(instrument, set, 1)
		}
		switch {
		case err == nil:
			turn++
		case errors.Is(err, ErrBusy):
			runtime.Gosched()
		case errors.Is(err, ErrRecorderFull):
			if ok, err := full(); !ok {
				return fmt.Errorf("a taking in: %v", err)
			}
		default:
			return err
		}
	}
	_, err := full()
	return err
}

package kotskhin

import (
	"encoding/hex"
	"errors"
	"fmt"
	"hash/adler32"
	"os"
	"strconv"
	"strings"
)

func (r *run) asking(s step) (any, error) {
	of := r.things[s["of"].(string)]
	if s["do"] == "streams" {
		streams, err := of.(interface{ Streams() (Streams, error) }).Streams()
		if err != nil {
			return nil, err
		}
		all, err := streams.All()
		made := []any{}
		for _, stream := range all {
			var shape any = []string{"monotonic sum", "sum", "gauge", ""}[stream.Shape]
			if stream.Shape == HistogramShape {
				shape = map[string]any{"bounds": anys(stream.Bounds)}
			}
			made = append(made, []any{stream.Scope, stream.Name, stream.Unit, shape})
		}
		return made, err
	}
	ask, err := r.ask(s["ask"].(map[string]any))
	if err != nil {
		return nil, err
	}
	rows, err := of.(Gateway).Rows(ask)
	if err != nil {
		return nil, err
	}
	if s["do"] == "row" {
		return called(rows, s)
	}
	if wanted, ok := s["table"]; ok {
		if table, err := rows.Table(); err != nil || table != wanted {
			return nil, fmt.Errorf("the table is %q, %v", table, err)
		}
	}
	all, err := rows.All()
	made := []any{}
	for _, row := range all {
		made = append(made, data(row))
	}
	return made, err
}

func anys[T any](list []T) []any {
	made := []any{}
	for _, incarnation := range list {
		made = append(made, incarnation)
	}
	return made
}

func data(row Row) map[string]any {
	made := map[string]any{"attributes": listed(row.Attributes), "points": row.Points, "conflicts": row.Conflicts}
	if row.Total != nil {
		made["total"] = row.Total
	}
	if row.Newest != nil {
		made["time"], made["value"] = row.Newest.Time, row.Newest.Value
	}
	if row.Values != nil {
		made["count"], made["buckets"] = row.Values.Count, anys(row.Values.Buckets)
		if row.Values.Range != nil {
			made["least"], made["greatest"] = row.Values.Range.Least, row.Values.Range.Greatest
		}
	}
	return made
}

func called(rows Rows, s step) (any, error) {
	row := int(mustInt(s["row"]))
	if s["call"] == "attributes" {
		return one(rows.Attributes(row))
	}
	made, err := rows.At(row)
	return data(made), err
}

func (r *run) gateways(s step) (any, error) {
	thing := func(word string) any { return r.things[s[word].(string)] }
	switch s["do"] {
	case "gateway":
		id, err := unsigned(s["id"], 32)
		if err != nil {
			return nil, err
		}
		made, err := OpenGateway(uint32(id))
		return r.keep(s, made, err)
	case "gateway_read":
		id, points, err := thing("of").(Gateway).Head()
		return map[string]any{"id": id, "points": points}, err
	case "take":
		taking, err := thing("by").(Gateway).Take(thing("export").(Export))
		if late, ok := s["late"]; ok && err == nil && late != taking.Late {
			return nil, fmt.Errorf("it is late: %v", taking.Late)
		}
		return taking.Changed, err
	case "merge":
		return one(thing("by").(Gateway).Merge(thing("from").(Gateway)))
	case "merge_bytes":
		return one(thing("by").(Gateway).MergeBytes(r.bytes(s["bytes"])))
	case "conflicts":
		return one(thing("of").(Gateway).Conflicts())
	case "same":
		return one(thing("of").(Gateway).Same(thing("and").(Gateway)))
	case "newest":
		id, err := instance(s["instance"])
		if err != nil {
			return nil, err
		}
		start, err := unsigned(s["start"], 64)
		if err != nil {
			return nil, err
		}
		return one(thing("of").(Gateway).Newest(text_(s["service"]), id, start))
	default:
		return nil, fmt.Errorf("there is no step %v", s["do"])
	}
}

func (r *run) gossip(s step) (any, error) {
	thing := func(word string) any { return r.things[s[word].(string)] }
	switch s["do"] {
	case "send":
		to, err := unsigned(s["to"], 32)
		if err != nil {
			return nil, err
		}
		made, err := thing("by").(Gateway).Send(uint32(to))
		return r.keep(s, made, err)
	case "hand":
		answer, isAnswered, err := thing("by").(Gateway).Hand(thing("message").(Message))
		name, isWanted := s["answer"].(string)
		if err == nil && isAnswered != isWanted {
			return nil, fmt.Errorf("it is answered: %v", isAnswered)
		}
		r.things[name] = answer
		return nil, err
	default:
		from, to, points, err := thing("of").(Message).Envelope()
		return map[string]any{"from": from, "to": to, "points": points}, err
	}
}

func (r *run) formats(s step) (any, error) {
	switch s["do"] {
	case "incarnations":
		list, err := r.things[s["of"].(string)].(interface{ Incarnations() ([]Incarnation, error) }).Incarnations()
		made := []any{}
		for _, one := range list {
			made = append(made, map[string]any{
				"service": one.Service, "instance": whole(one.Instance), "start": one.Start, "newest": one.Newest, "points": one.Points,
			})
		}
		return made, err
	case "services":
		list, err := r.things[s["of"].(string)].(Gateway).Services()
		made := []any{}
		for _, one := range list {
			made = append(made, one)
		}
		return made, err
	case "otlp":
		made, err := r.things[s["of"].(string)].(Export).OTLP()
		return r.keep(s, made, err)
	case "of_otlp":
		list, err := ExportsOfOTLP(r.bytes(s["bytes"]))
		for i, name := range s["as"].([]any) {
			if i < len(list) {
				r.things[name.(string)] = list[i]
			}
		}
		return len(list), err
	default:
		return nil, r.page(s)
	}
}

func (r *run) page(s step) error {
	gateway := r.things[s["of"].(string)].(Gateway)
	all, of := gateway.OpenMetrics, gateway.OpenMetricsOf
	if s["format"] == "prometheus" {
		all, of = gateway.Prometheus, gateway.PrometheusOf
	}
	if service, ok := s["service"]; ok {
		all = func(options ...PageOption) (string, error) { return of(text_(service), options...) }
	}
	var options []PageOption
	if s["tombstones"] == true {
		options = append(options, WithTombstones())
	}
	told, err := all(options...)
	for _, line := range s["has"].([]any) {
		if err == nil && !strings.Contains("\n"+told, "\n"+line.(string)+"\n") {
			return fmt.Errorf("%q is not in %q", line, told)
		}
	}
	for _, lacked := range s["lacks"].([]any) {
		if strings.Contains(told, lacked.(string)) {
			return fmt.Errorf("%q is in %q", lacked, told)
		}
	}
	return err
}

func (r *run) encoding(s step) (any, error) {
	switch s["do"] {
	case "encode":
		made, err := r.things[s["of"].(string)].(interface{ Encode() ([]byte, error) }).Encode()
		return r.keep(s, made, err)
	case "decode":
		bytes := r.bytes(s["bytes"])
		switch s["what"] {
		case "export":
			made, err := DecodeExport(bytes)
			return r.keep(s, made, err)
		default:
			made, err := DecodeMessage(bytes)
			return r.keep(s, made, err)
		}
	case "bytes_are":
		if told := hex.EncodeToString(r.bytes(s["of"])); told != s["hex"] {
			return nil, errors.New("the bytes are " + told)
		}
		return nil, nil
	case "bytes":
		return r.keep(s, spoilt(append([]byte{}, r.bytes(s["of"])...), s), nil)
	default:
		return nil, r.decodeOften(s)
	}
}

func spoilt(made []byte, s step) []byte {
	if list, ok := s["set"].([]any); ok {
		for _, one := range list {
			place := int(mustInt(one.([]any)[0]))
			if place < 0 {
				place += len(made)
			}
			made[place] = byte(mustInt(one.([]any)[1]))
		}
	}
	if cut, ok := s["cut"]; ok {
		made = made[:mustInt(cut)]
	}
	if add, ok := s["add"].(string); ok {
		more, _ := hex.DecodeString(add)
		made = append(made, more...)
	}
	if s["checksum"] == true {
		sum := adler32.Checksum(made[:len(made)-4])
		for i := 0; i < 4; i++ {
			made[len(made)-4+i] = byte(sum >> (24 - 8*i))
		}
	}
	return made
}

// decodeOften closes each export, as a gateway does that takes many.
func (r *run) decodeOften(s step) error {
	gateway, bytes, times := r.things[s["by"].(string)].(Gateway), r.bytes(s["bytes"]), int(mustInt(s["times"]))
	before := 0
	for turn := 0; turn <= times; turn++ {
		export, err := DecodeExport(bytes)
		if err == nil {
			_, err = gateway.Take(export)
		}
		if err != nil {
			return err
		}
		export.Close()
		if turn == times/10 {
			before = resident()
		}
	}
	if grown := resident() - before; grown > int(mustInt(s["most_megabytes"])) {
		return fmt.Errorf("the process grew by %d MB", grown)
	}
	return nil
}

// resident is how many megabytes the process has.
func resident() int {
	status, _ := os.ReadFile("/proc/self/status")
	for _, line := range strings.Split(string(status), "\n") {
		if strings.HasPrefix(line, "VmRSS:") {
			kilobytes, _ := strconv.Atoi(strings.Fields(line)[1])
			return kilobytes / 1024
		}
	}
	return 0
}

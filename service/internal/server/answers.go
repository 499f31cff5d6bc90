package server

import (
	"net/http"
	"strconv"

	kotskhin "kotskhin.example/sdk/go"
	"kotskhin.example/sdk/go/attribute"
)

// A pair as OTLP's JSON has it.
type jsonPair struct {
	Key   string         `json:"key"`
	Value map[string]any `json:"value"`
}

// A stream as JSON.
type jsonStream struct {
	Scope  string  `json:"scope"`
	Name   string  `json:"name"`
	Unit   string  `json:"unit"`
	Shape  string  `json:"shape"`
	Bounds []int64 `json:"bounds,omitempty"`
}

// A row as JSON. Numbers that may have more than 53 bits are texts, as in OTLP's JSON.
type jsonRow struct {
	Attributes []jsonPair `json:"attributes"`
	Points     uint64     `json:"points"`
	Conflicts  uint64     `json:"conflicts"`
	Total      string     `json:"total,omitempty"`
	Time       string     `json:"time,omitempty"`
	Value      string     `json:"value,omitempty"`
	Count      string     `json:"count,omitempty"`
	Buckets    []string   `json:"buckets,omitempty"`
	Least      string     `json:"least,omitempty"`
	Greatest   string     `json:"greatest,omitempty"`
}

func streamOf(s kotskhin.Stream) jsonStream {
	return jsonStream{s.Scope, s.Name, s.Unit, shapes[s.Shape], s.Bounds}
}

func pairOf(pair attribute.KeyValue) jsonPair {
	data := jsonPair{Key: string(pair.Key), Value: map[string]any{}}
	switch pair.Value.Type() {
	case attribute.INT64:
		data.Value["intValue"] = strconv.FormatInt(pair.Value.AsInt64(), 10)
	case attribute.BOOL:
		data.Value["boolValue"] = pair.Value.AsBool()
	default:
		data.Value["stringValue"] = pair.Value.AsString()
	}
	return data
}

func rowOf(row kotskhin.Row) jsonRow {
	data := jsonRow{Attributes: []jsonPair{}, Points: row.Points, Conflicts: row.Conflicts}
	for _, pair := range row.Attributes {
		data.Attributes = append(data.Attributes, pairOf(pair))
	}
	if row.Total != nil {
		data.Total = row.Total.String()
	}
	if row.Newest != nil {
		data.Time, data.Value = strconv.FormatUint(row.Newest.Time, 10), strconv.FormatInt(row.Newest.Value, 10)
	}
	if row.Values != nil {
		data.Count = row.Values.Count.String()
		for _, bucket := range row.Values.Buckets {
			data.Buckets = append(data.Buckets, bucket.String())
		}
		if between := row.Values.Range; between != nil {
			data.Least, data.Greatest = strconv.FormatInt(between.Least, 10), strconv.FormatInt(between.Greatest, 10)
		}
	}
	return data
}

// writeText answers with a text.
func writeText(w http.ResponseWriter, kind, text string) error {
	w.Header().Set("Content-Type", kind)
	w.Header().Set("Content-Length", strconv.Itoa(len(text)))
	_, err := w.Write([]byte(text))
	if err != nil {
		return refusal{http.StatusServiceUnavailable, "gone", "the reader is gone"}
	}
	return nil
}

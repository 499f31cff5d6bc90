package server

import (
	"net/http"
	"net/url"
	"strings"
	"testing"

	kotskhin "kotskhin.example/sdk/go"
)

func several() []kotskhin.Stream {
	return []kotskhin.Stream{
		{Scope: "app", Name: "requests", Unit: "1", Shape: kotskhin.MonotonicSum},
		{Scope: "app", Name: "requests", Unit: "1", Shape: kotskhin.NonMonotonicSum},
		{Scope: "app", Name: "requests", Unit: "1", Shape: kotskhin.GaugeShape},
		{Scope: "app", Name: "requests", Unit: "1", Shape: kotskhin.HistogramShape, Bounds: kotskhin.DefaultBounds()},
		{Scope: "app", Name: "requests", Unit: "1", Shape: kotskhin.HistogramShape, Bounds: []int64{5, 10}},
	}
}

// The words of the service and those of scripts and otm name the same shapes, however a plus sign arrives.
func TestWordsForShapes(t *testing.T) {
	usual := strings.TrimPrefix(boundsOf(several()[3]), ":")
	for query, wanted := range map[string]int{
		"shape=counter": 0, "shape=sum%2B": 0, "shape=sum+": 0, "shape=sum%20": 0,
		"shape=updown": 1, "shape=sum": 1,
		"shape=gauge": 2,
		"shape=hist":  3, "shape=histogram&bounds=" + usual: 3, "shape=hist:" + usual: 3, "bounds=" + usual: 3,
		"shape=hist:5,10": 4, "shape=histogram:5,10": 4, "shape=histogram&bounds=5,10": 4, "shape=hist&bounds=5,10": 4, "bounds=5,10": 4,
		"shape=hist:5,10&bounds=5,10": 4,
	} {
		values := must[url.Values](t)(url.ParseQuery("name=requests&" + query))
		found, err := findStream(several(), values)
		if stream := several()[wanted]; err != nil || found.Shape != stream.Shape || boundsOf(found) != boundsOf(stream) {
			t.Errorf("%s: %v, %v", query, found, err)
		}
	}
	// (the only histogram that there is is meant, whatever its bounds)
	if found, err := findStream(several()[4:], url.Values{"shape": {"hist"}}); err != nil || len(found.Bounds) != 2 {
		t.Error(found, err)
	}
}

// What is no ask is told, and not answered as another one.
func TestWhatIsNoAsk(t *testing.T) {
	_, at := served(t, 1, nil)
	if status, said, _ := got(t, http.MethodPost, at+"/v1/exports", encoded(t, "shop", 1, 3)); status != 200 {
		t.Fatal(status, said)
	}
	for query, test := range map[string]struct {
		status int
		says   string
	}{
		"where=route": {400, "names no attribute"}, "where=%3D/": {400, "names no attribute"}, "where=": {400, "names no attribute"},
		"where=a=1&where=route":  {400, "names no attribute"},
		"keep=route,,zone":       {400, "an empty key"},
		"keep=route,":            {400, "an empty key"},
		"keep=&keep=route":       {400, "an empty key"},
		"keep=route=/":           {400, "have no value"},
		"keep=route,route":       {400, "twice"},
		"keep=route&keep=route":  {400, "twice"},
		"shape=nope":             {400, "no shape"},
		"shape=sum:5":            {400, "no shape"},
		"shape=hist:5,a":         {400, "no bounds"},
		"shape=hist:5&bounds=10": {400, "behind the shape"},
		"bounds=5,,10":           {400, "no bounds"},
		"name=a&name=b":          {400, "may come once"},
		"service=a&service=b":    {400, "may come once"},
		"nam=requests":           {400, "there is no"},
		"shape=hist:5,10":        {404, "no such stream"},
		"where=a=1&where=b=":     {200, ""}, "where=route==": {200, ""},
		"keep=": {200, "3"}, "keep=route,zone": {200, "3"}, "shape=sum+": {200, "3"}, "shape=sum%2B&service=shop": {200, "3"},
	} {
		for _, path := range []string{"/v1/table?", "/v1/rows?"} {
			status, said, _ := got(t, http.MethodGet, at+path+query, nil)
			if status != test.status || !strings.Contains(said, test.says) {
				t.Errorf("%s%s: %d %s", path, query, status, said)
			}
		}
	}
}

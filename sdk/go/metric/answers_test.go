package metric

import (
	"context"
	"errors"
	"fmt"
	"net/http"
	"net/http/httptest"
	"strings"
	"testing"

	kotskhin "kotskhin.example/sdk/go"
)

// answering is a server that answers by a status, a body, and how many exports were late where that is said, and what it was asked.
func answering(t *testing.T, status int, body, late string) (url string, asked *int) {
	t.Helper()
	asked = new(int)
	server := httptest.NewServer(http.HandlerFunc(func(w http.ResponseWriter, _ *http.Request) {
		*asked++
		if late != "" {
			w.Header()["kotskhin-LATE"] = []string{late}
		}
		w.WriteHeader(status)
		w.Write([]byte(body))
	}))
	t.Cleanup(server.Close)
	return server.URL, asked
}

// partial is an answer of OTLP: so many points were refused, for a reason.
func partial(points byte, why string) string {
	inner := "\x08" + string([]byte{points}) + "\x12" + string([]byte{byte(len(why))}) + why
	return "\x0a" + string([]byte{byte(len(inner))}) + inner
}

// An answer to an export, and what it says was not taken; none where it fails nothing.
type answerCase struct {
	body, late string
	wanted     *NotTakenError
}

func tryAnswers(t *testing.T, exporter func(string, http.Header, *http.Client) Exporter, cases []answerCase) {
	t.Helper()
	export := collected(t)
	for _, test := range cases {
		url, _ := answering(t, 200, test.body, test.late)
		err := exporter(url, nil, nil).Export(context.Background(), export)
		var why *NotTakenError
		if errors.As(err, &why) != (test.wanted != nil) || test.wanted == nil && err != nil || test.wanted != nil && *why != *test.wanted {
			t.Errorf("%.40q, %q: %v, and not %v", test.body, test.late, err, test.wanted)
		}
	}
}

var long = strings.Repeat("x", mostLookedAt)

// What an answer to OTLP says was rejected fails the export; any other body of 2xx fails nothing.
func TestWhatOTLPSaysWasNotTaken(t *testing.T) {
	good := partial(3, "why")
	tryAnswers(t, HTTPExporter, []answerCase{
		{partial(3, "3 points: LATE"), "2", &NotTakenError{Points: 3, Message: "3 points: LATE"}},
		{partial(3, ""), "", &NotTakenError{Points: 3}},
		{good + "\x12\x08unknown!", "", &NotTakenError{Points: 3, Message: "why"}},
		{partial(0, "a warning"), "", nil}, {"", "", nil}, {"OK\n", "", nil}, {"{}", "", nil}, {good[:7], "", nil}, {good + "\x0a", "", nil},
		// (one that is as long as is looked at, and one that is longer)
		{good + "\x12\xf3\xff\x03" + long[13:], "", &NotTakenError{Points: 3, Message: "why"}},
		{good + "\x12\xf4\xff\x03" + long[12:], "", nil},
	})
	url, asked := answering(t, 503, good, "2")
	if err := HTTPExporter(url, nil, nil).Export(context.Background(), collected(t)); err == nil || isNotTaken(err) || *asked != 1 {
		t.Fatal(err)
	}
}

// So does what a gateway says of the kit's own bytes.
func TestWhatAGatewaySaysIsLate(t *testing.T) {
	body := `{"exports":3,"points":3,"late":2}`
	tryAnswers(t, HTTPBytesExporter, []answerCase{
		{body, "2", &NotTakenError{Exports: 2}}, {long + "x", strings.Repeat("9", 19), &NotTakenError{Exports: 9_999_999_999_999_999_999}},
		{body, "", nil}, {body, "0", nil}, {body, "two", nil}, {body, "-2", nil}, {body, "+2", nil}, {body, "2.0", nil}, {body, "0x2", nil},
		{body, strings.Repeat("0", 24) + "2", nil},
	})
}

func TestWhatNotTakenSays(t *testing.T) {
	for wanted, fault := range map[string]*NotTakenError{
		"kotskhin: 3 points were not taken: LATE":           {Points: 3, Message: "LATE"},
		"kotskhin: 3 points were not taken":                 {Points: 3},
		"kotskhin: 2 exports came late, and were not taken": {Exports: 2},
	} {
		if found := fault.Error(); found != wanted {
			t.Error(found)
		}
	}
}

// An export of which something was not taken goes to no other gateway, and the one that said so is asked first the next time.
func TestWhatWasNotTakenGoesToNobodyElse(t *testing.T) {
	export := collected(t)
	down, first := answering(t, 503, "", "")
	late, second := answering(t, 200, "", "1")
	takes, third := answering(t, 200, "", "")
	all := FirstOf(HTTPBytesExporter(down, nil, nil), HTTPBytesExporter(late, nil, nil), HTTPBytesExporter(takes, nil, nil))
	for turn := 1; turn < 3; turn++ {
		var why *NotTakenError
		if err := all.Export(context.Background(), export); !errors.As(err, &why) || why.Exports != 1 {
			t.Fatal(err)
		}
		if *first != 1 || *second != turn || *third != 0 {
			t.Fatal(turn, *first, *second, *third)
		}
	}
	// (an exporter of somebody's own may say more around it)
	around := ExporterFunc(func(context.Context, kotskhin.Export) error { return fmt.Errorf("here: %w", &NotTakenError{Points: 1}) })
	if err := FirstOf(around, HTTPBytesExporter(takes, nil, nil)).Export(context.Background(), export); !isNotTaken(err) || *third != 0 {
		t.Fatal(err, *third)
	}
}

// The error of a refusal has its status, and what its body says of it in one line that can be printed.
func TestWhatARefusalSays(t *testing.T) {
	why := "the token does not speak for the service nope"
	status := func(message string) string {
		return "\x08\x93\x03\x12" + string([]byte{byte(len(message))}) + message + "\x1a\x02{}"
	}
	for _, test := range []struct{ kind, body, wanted string }{
		{"text/plain", why + "\nand more\n", ": " + why}, {"text/plain", "\r\n\t" + why + "\r\n", ": " + why},
		{"text/plain", "\x1b[31m" + why[:9] + "\x00\u0085\u202e\xff" + why[9:], ": [31m" + why}, {"text/plain", " \n", ""}, {"", "", ""},
		{"text/plain", long, ": " + long[:1024]}, {"text/plain", long[:1023] + "é", ": " + long[:1023]},
		{OTLPType, "\x08\x07\x12" + string([]byte{byte(len(why))}) + why, ": " + why}, {OTLPType + "; charset=x", status(why), ": " + why},
		{OTLPType, status(why)[:20], ""}, {OTLPType, "\x08", ""}, {OTLPType, "\x0d1234", ""},
		{OTLPType, "\x12" + strings.Repeat("\xff", 9) + "\x01", ""},
	} {
		server := httptest.NewServer(http.HandlerFunc(func(w http.ResponseWriter, _ *http.Request) {
			w.Header().Set("Content-Type", test.kind)
			w.WriteHeader(http.StatusForbidden)
			w.Write([]byte(test.body))
		}))
		err := HTTPExporter(server.URL, nil, nil).Export(ctx, collected(t))
		is(t, fmt.Sprint(err), "the answer is 403 Forbidden"+test.wanted)
		server.Close()
	}
}

// A reader counts it among what failed, and tells its hook.
func TestAReaderTellsWhatWasNotTaken(t *testing.T) {
	url, _ := answering(t, 200, partial(1, "LATE"), "")
	var told []error
	reader := NewPeriodicReader(HTTPExporter(url, nil, nil), WithOnFailed(func(err error) { told = append(told, err) }))
	p, requests := counting(t, reader)
	requests.Add(ctx, 7)
	var why *NotTakenError
	if err := p.ForceFlush(ctx); !errors.As(err, &why) || why.Points != 1 || why.Message != "LATE" {
		t.Fatal(err)
	}
	var last *ExportError
	if err := p.Shutdown(ctx); !errors.As(err, &last) || !isNotTaken(err) {
		t.Fatal(err)
	}
	is(t, decoded(t, last.Unsent), "{} 7")
	if len(told) != 2 || !isNotTaken(told[0]) || reader.Failed() != 2 {
		t.Fatal(told)
	}
}

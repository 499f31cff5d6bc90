package server

import (
	"bytes"
	"context"
	"encoding/binary"
	"hash/adler32"
	"net/http"
	"os"
	"path/filepath"
	"strings"
	"testing"
	"time"

	kotskhin "kotskhin.example/sdk/go"
	"kotskhin.example/service/internal/archivist"
	"kotskhin.example/service/internal/logs"
	"kotskhin.example/service/internal/otlp"
	"kotskhin.example/service/internal/tokens"
)

// archived is a gateway with an archivist of the service shop, and what lets its clock go on for so long and has it look.
func archived(t *testing.T, change func(s *Server)) (s *Server, url string, after func(length time.Duration)) {
	t.Helper()
	clock := time.Now()
	s, url = served(t, 1, func(s *Server) {
		s.Held.Now = func() time.Time { return clock }
		if change != nil {
			change(s)
		}
	})
	by := &archivist.Archivist{Held: s.Held, Gossip: s.Gossip, Figures: s.Figures, Services: []string{"shop"}, After: time.Hour}
	by.Every = time.Hour
	return s, url, func(length time.Duration) {
		clock = clock.Add(length)
		by.Turn(context.Background())
	}
}

// row is a line of the page for Prometheus that begins so, without what it begins with.
func row(t *testing.T, url, begins string) string {
	t.Helper()
	status, page, _ := got(t, http.MethodGet, url+"/metrics", nil)
	if status != 200 {
		t.Fatal(status, page)
	}
	for _, line := range strings.Split(page, "\n") {
		if strings.HasPrefix(line, begins+" ") {
			return strings.TrimPrefix(line, begins+" ")
		}
	}
	return ""
}

const allRequests = `requests_total{otel_scope_name="app",service_name="shop"}`

// Workers end, and what they counted goes on to be shown, while their points are given back. Who reports late is told so, and no error.
func TestAdoptionByHTTP(t *testing.T) {
	_, url, after := archived(t, nil)
	for instance := uint64(1); instance < 6; instance++ {
		if status, said, _ := got(t, http.MethodPost, url+"/v1/exports", encoded(t, "shop", instance, 7)); status != 200 {
			t.Fatal(status, said)
		}
	}
	after(time.Hour - time.Second)
	if total, points := row(t, url, allRequests), row(t, url, "kotskhin_gateway_held_points"); total != "35" || points != "5" {
		t.Fatal(total, points)
	}
	after(time.Second)
	if total, points := row(t, url, allRequests), row(t, url, "kotskhin_gateway_held_points"); total != "35" || points != "6" {
		t.Fatal(total, points)
	}
	if adopted := row(t, url, `kotskhin_gateway_adopted_total{service="shop"}`); adopted != "5" {
		t.Fatal(adopted)
	}
	late, live := encoded(t, "shop", 3, 9), encoded(t, "shop", 6, 1)
	for _, test := range []struct {
		body             []byte
		kind, said, late string
	}{
		{late, "", `{"exports":1,"points":1,"late":1}`, "1"}, {live, "", `{"exports":1,"points":1}`, ""},
		{framed(live, late), ExportsType, `{"exports":2,"points":2,"late":1}`, "1"},
		{framed(late, late), ExportsType, `{"exports":2,"points":1,"late":2}`, "2"},
	} {
		status, said, head := got(t, http.MethodPost, url+"/v1/exports", test.body, "Content-Type", test.kind)
		if status != 200 || said != test.said+"\n" || head.Get("Kotskhin-Late") != test.late {
			t.Fatal(status, said, head)
		}
	}
	count := row(t, url, `kotskhin_gateway_late_exports_total{path="/v1/exports"}`)
	if points := row(t, url, `kotskhin_gateway_points_total{path="/v1/exports"}`); points != "7" {
		t.Fatal(points)
	}
	if total := row(t, url, allRequests); total != "36" || count != "4" {
		t.Fatal(total, count)
	}
}

// OTLP has points that were not taken told as a partial success, which no sender sends again.
func TestLateByOTLP(t *testing.T) {
	var out bytes.Buffer
	_, url, after := archived(t, func(s *Server) { s.Log = logs.New(&out, logs.Warn, false) })
	late := must[[]byte](t)(exported(t, "shop", 1, 7).OTLP())
	post := func(body []byte) string {
		t.Helper()
		status, said, _ := got(t, http.MethodPost, url+"/v1/metrics", body, "Content-Type", otlp.Type)
		if status != 200 {
			t.Fatal(status, said)
		}
		return said
	}
	if said := post(late); said != "" {
		t.Fatal(said)
	}
	after(time.Hour)
	wanted := string(otlp.Taken(1, "1 points: LATE: their incarnation was adopted before"))
	for turn := 0; turn < 2; turn++ {
		if said := post(late); said != wanted {
			t.Fatalf("%q", said)
		}
	}
	// (of two requests one line says whose is late)
	if lines := out.String(); strings.Count(lines, "\n") != 1 || !strings.Contains(lines, "00000000-0000-0000-0000-000000000001") {
		t.Fatal(lines)
	}
}

// archive is the export of an archive of the service shop that adopted the instance 1, which had counted 3 by then.
func archive(t *testing.T) kotskhin.Export {
	t.Helper()
	gateway := must[kotskhin.Gateway](t)(kotskhin.OpenGateway(3))
	must[kotskhin.Taking](t)(gateway.Take(exported(t, "shop", 1, 3)))
	made := must[kotskhin.Archive](t)(kotskhin.BeginArchive("shop", 1))
	if err := made.Adopt(gateway, "shop", kotskhin.Instance{Low: 1}, 100); err != nil {
		t.Fatal(err)
	}
	return must[kotskhin.Export](t)(made.Export(200))
}

// forged is what no archive exports: the same under the service till, with a tombstone that names an incarnation of the service shop. The
// service stands first in the bytes, the attribute only names it there, and they end with their checksum (docs/design/BYTES.md).
func forged(t *testing.T) kotskhin.Export {
	t.Helper()
	changed := bytes.Replace(must[[]byte](t)(archive(t).Encode()), []byte("shop"), []byte("till"), 1)
	changed = bytes.Replace(changed, []byte("service\x00\x01"), []byte("service\x00\x00\x04shop"), 1)
	end := len(changed) - 4
	binary.BigEndian.PutUint32(changed[end:], adler32.Checksum(changed[:end]))
	made := must[kotskhin.Export](t)(kotskhin.DecodeExport(changed))
	if must[kotskhin.ExportHead](t)(made.Head()).Service != "till" {
		t.Fatal(made)
	}
	return made
}

// No sender hides another one. Peers may tell of tombstones, and so may a text that is not a scope.
func TestSendersBringNoTombstones(t *testing.T) {
	s, url := served(t, 1, nil)
	good, bad := encoded(t, "shop", 1, 7), archive(t)
	if status, said, _ := got(t, http.MethodPost, url+"/v1/exports", good); status != 200 {
		t.Fatal(status, said)
	}
	bytes, request := must[[]byte](t)(bad.Encode()), must[[]byte](t)(bad.OTLP())
	for _, test := range []struct {
		path, kind string
		body       []byte
	}{{"/v1/exports", "", bytes}, {"/v1/exports", ExportsType, framed(good, bytes)}, {"/v1/metrics", otlp.Type, request}} {
		status, said, _ := got(t, http.MethodPost, url+test.path, test.body, "Content-Type", test.kind)
		if status != 403 || !strings.Contains(said, "kotskhin.archive") {
			t.Error(test.path, status, said)
		}
	}
	if refused := row(t, url, `kotskhin_gateway_refused_total{path="/v1/exports",reason="reserved"}`); refused != "2" {
		t.Fatal(refused)
	}
	if total, points := row(t, url, allRequests), row(t, url, "kotskhin_gateway_held_points"); total != "7" || points != "1" {
		t.Fatal(total, points)
	}
	if status, said, _ := got(t, http.MethodPost, url+"/v1/exports", encoded(t, "kotskhin.archive", 2, 7)); status != 200 {
		t.Fatal(status, said)
	}
	if status, said, _ := got(t, http.MethodPost, url+"/v1/messages", messageOf(t, bad, s.Held.ID())); status != 200 {
		t.Fatal(status, said)
	}
	// (what the archive adopted is shown in the place of what came)
	if total := row(t, url, allRequests); total != "3" {
		t.Fatal(total)
	}
}

// What is adopted stands in the totals, and the tombstones on a page that asks for them.
func TestAPageShowsTombstonesThatAreAskedFor(t *testing.T) {
	s, url := served(t, 1, nil)
	if status, said, _ := got(t, http.MethodPost, url+"/v1/messages", messageOf(t, archive(t), s.Held.ID())); status != 200 {
		t.Fatal(status, said)
	}
	for _, accepted := range []string{"*/*", "application/openmetrics-text"} {
		for query, wanted := range map[string]int{"": 0, "?tombstones=false": 0, "?tombstones=true": 1} {
			status, page, _ := got(t, http.MethodGet, url+"/metrics"+query, nil, "Accept", accepted)
			isWhole := strings.Contains(page, "\n"+allRequests+" 3\n") && strings.Contains(page, "kotskhin_gateway_held_points 2")
			if found := strings.Count(page, `,otel_scope_name="kotskhin.archive",`); status != 200 || found != wanted || !isWhole {
				t.Error(accepted, query, status, found, page)
			}
		}
	}
	for _, query := range []string{"?tombstones", "?tombstones=1", "?tombstones=true&tombstones=true"} {
		if status, said, _ := got(t, http.MethodGet, url+"/metrics"+query, nil); status != 400 || !strings.Contains(said, "tombstones") {
			t.Error(query, status, said)
		}
	}
}

// messageOf is a message of a gateway that took an export.
func messageOf(t *testing.T, export kotskhin.Export, to uint32) []byte {
	t.Helper()
	peer := must[kotskhin.Gateway](t)(kotskhin.OpenGateway(2))
	must[kotskhin.Taking](t)(peer.Take(export))
	return must[[]byte](t)(must[kotskhin.Message](t)(peer.Send(to)).Encode())
}

// A peer whose token is of some services hides none of another.
func TestPeersNameTheirServicesAlone(t *testing.T) {
	file := filepath.Join(t.TempDir(), "tokens")
	if err := os.WriteFile(file, []byte(rights), 0o600); err != nil {
		t.Fatal(err)
	}
	s, url := served(t, 1, func(s *Server) { s.Tokens = must[*tokens.File](t)(tokens.Open(file)) })
	forgedMessage, archiveMessage := messageOf(t, forged(t), s.Held.ID()), messageOf(t, archive(t), s.Held.ID())
	for _, test := range []struct {
		token   string
		message []byte
		status  int
	}{
		{"lame-0123456789abcdef", forgedMessage, 403}, {"lame-0123456789abcdef", archiveMessage, 403},
		{"peer-0123456789abcdef", archiveMessage, 200}, {"peer-0123456789abcdef", forgedMessage, 200},
	} {
		status, said, _ := got(t, http.MethodPost, url+"/v1/messages", test.message, "Authorization", "Bearer "+test.token)
		if status != test.status || status == 403 && !strings.Contains(said, "service shop") {
			t.Error(test.token, status, said)
		}
	}
}

package server

import (
	"bytes"
	"compress/gzip"
	"context"
	"encoding/binary"
	"io"
	"net/http"
	"net/http/httptest"
	"os"
	"path/filepath"
	"strings"
	"sync/atomic"
	"testing"
	"time"

	kotskhin "kotskhin.example/sdk/go"
	"kotskhin.example/service/internal/figures"
	"kotskhin.example/service/internal/gossip"
	"kotskhin.example/service/internal/held"
	"kotskhin.example/service/internal/logs"
	"kotskhin.example/service/internal/otlp"
	"kotskhin.example/service/internal/tokens"
)

func must[T any](t *testing.T) func(made T, err error) T {
	return func(made T, err error) T {
		t.Helper()
		if err != nil {
			t.Fatal(err)
		}
		return made
	}
}

const rights = `shop-0123456789abcdef write shop
peer-0123456789abcdef peer *
lame-0123456789abcdef peer till
`

// served is a gateway of an id that answers.
func served(t *testing.T, id uint32, change func(s *Server)) (*Server, string) {
	t.Helper()
	gateway := must[kotskhin.Gateway](t)(kotskhin.OpenGateway(id))
	s := &Server{
		Held: must[*held.Held](t)(held.New(gateway, held.Limits{Points: 100, Streams: 3})), Figures: figures.New(), Process: "p",
		Limits: Limits{Body: 1 << 16, Message: 1 << 16, InFlight: 1 << 20, Patience: time.Minute},
	}
	s.Gossip = &gossip.Gossip{Held: s.Held, Interval: time.Second}
	if change != nil {
		change(s)
	}
	ctx, end := context.WithCancel(context.Background())
	s.Gossip.Begin(ctx)
	s.Figures.Reads(s.Show)
	answers := httptest.NewServer(s.Handler())
	t.Cleanup(func() {
		end()
		s.Gossip.Wait()
		answers.CloseClientConnections()
		answers.Close()
	})
	return s, answers.URL
}

// exported is an export of a service's instance: a counter that has this value.
func exported(t *testing.T, service string, instance uint64, value int64) kotskhin.Export {
	t.Helper()
	plan := must[kotskhin.Plan](t)(kotskhin.NewPlan(kotskhin.Instrument{Scope: "app", Name: "requests", Unit: "1", Kind: kotskhin.Counter}))
	writer := must[kotskhin.Writer](t)(kotskhin.StartWriter(plan, service, kotskhin.Instance{Low: instance}, 100))
	if err := writer.Measure(0, must[kotskhin.Attributes](t)(kotskhin.NewAttributes()), value); err != nil {
		t.Fatal(err)
	}
	return must[kotskhin.Export](t)(writer.Collect(200))
}

func encoded(t *testing.T, service string, instance uint64, value int64) []byte {
	t.Helper()
	return must[[]byte](t)(exported(t, service, instance, value).Encode())
}

func got(t *testing.T, method, url string, body []byte, heads ...string) (int, string, http.Header) {
	t.Helper()
	request := must[*http.Request](t)(http.NewRequest(method, url, bytes.NewReader(body)))
	for i := 0; i+1 < len(heads); i += 2 {
		request.Header.Set(heads[i], heads[i+1])
	}
	answer := must[*http.Response](t)(http.DefaultClient.Do(request))
	defer answer.Body.Close()
	return answer.StatusCode, string(must[[]byte](t)(io.ReadAll(answer.Body))), answer.Header
}

func zipped(body []byte) []byte {
	var out bytes.Buffer
	to := gzip.NewWriter(&out)
	to.Write(body)
	to.Close()
	return out.Bytes()
}

func framed(parts ...[]byte) (made []byte) {
	for _, part := range parts {
		var length [binary.MaxVarintLen64]byte
		made = append(append(made, length[:binary.PutUvarint(length[:], uint64(len(part)))]...), part...)
	}
	return made
}

func TestExportsAreTakenAndShown(t *testing.T) {
	_, url := served(t, 1, nil)
	for _, test := range []struct {
		body  []byte
		heads []string
		says  string
	}{
		{encoded(t, "shop", 1, 3), nil, `{"exports":1,"points":1}`},
		{zipped(encoded(t, "shop", 2, 4)), []string{"Content-Encoding", "gzip"}, `{"exports":1,"points":1}`},
		{framed(encoded(t, "till", 3, 5), encoded(t, "till", 4, 6)), []string{"Content-Type", ExportsType}, `{"exports":2,"points":2}`},
	} {
		status, said, _ := got(t, http.MethodPost, url+"/v1/exports", test.body, test.heads...)
		if status != 200 || strings.TrimSpace(said) != test.says {
			t.Fatal(status, said)
		}
	}
	request := must[[]byte](t)(exported(t, "bank", 5, 7).OTLP())
	if status, said, _ := got(t, http.MethodPost, url+"/v1/metrics", request, "Content-Type", otlp.Type); status != 200 || said != "" {
		t.Fatal(status, said)
	}
	_, page, head := got(t, http.MethodGet, url+"/metrics", nil)
	isWhole := strings.Contains(page, `service_name="till"} 11`) && strings.Contains(page, "kotskhin_gateway_held_points 5")
	if head.Get("Content-Type") != kotskhin.PrometheusType || !isWhole {
		t.Fatal(page)
	}
	_, page, head = got(t, http.MethodGet, url+"/metrics", nil, "Accept", "application/openmetrics-text;version=1.0.0,*/*;q=0.1")
	if head.Get("Content-Type") != kotskhin.OpenMetricsType || !strings.HasSuffix(page, "# EOF\n") {
		t.Fatal(page)
	}
	for query, says := range map[string]string{
		"":                            "  25\n",
		"?name=requests&service=till": "  11\n",
		"?name=requests&keep=":        "  25\n",
		"?where=route=/":              "total\n",
	} {
		if status, said, _ := got(t, http.MethodGet, url+"/v1/table"+query, nil); status != 200 || !strings.HasSuffix(said, says) {
			t.Error(query, status, said)
		}
	}
	_, said, _ := got(t, http.MethodGet, url+"/v1/rows?scope=app&shape=counter", nil)
	if said != `{"stream":{"scope":"app","name":"requests","unit":"1","shape":"counter"},`+
		`"rows":[{"attributes":[],"points":5,"conflicts":0,"total":"25"}]}`+"\n" {
		t.Error(said)
	}
	if _, said, _ = got(t, http.MethodGet, url+"/v1/streams", nil); !strings.Contains(said, `"name":"requests"`) {
		t.Error(said)
	}
	for query, wanted := range map[string]int{"?name=others": 404, "?nam=requests": 400} {
		if status, said, _ := got(t, http.MethodGet, url+"/v1/rows"+query, nil); status != wanted {
			t.Error(query, status, said)
		}
	}
}

// What is refused has its status, and nothing of it is taken.
func TestRefusals(t *testing.T) {
	file := filepath.Join(t.TempDir(), "tokens")
	if err := os.WriteFile(file, []byte(rights), 0o600); err != nil {
		t.Fatal(err)
	}
	s, url := served(t, 1, func(s *Server) { s.Tokens = must[*tokens.File](t)(tokens.Open(file)) })
	shop, peer, lame := "Bearer shop-0123456789abcdef", "Bearer peer-0123456789abcdef", "Bearer lame-0123456789abcdef"
	good := encoded(t, "shop", 1, 3)
	other := must[*held.Held](t)(held.New(must[kotskhin.Gateway](t)(kotskhin.OpenGateway(2)), held.Limits{Points: 9, Streams: 9}))
	brought := must[*held.Brought](t)(held.Bring([]kotskhin.Export{exported(t, "shop", 9, 1)}, nil))
	if _, err := other.Take(brought); err != nil {
		t.Fatal(err)
	}
	message, misdirected := must[[]byte](t)(other.Tell(1)), must[[]byte](t)(other.Tell(3))
	answer := must[[]byte](t)(s.Held.Hand(must[kotskhin.Message](t)(kotskhin.DecodeMessage(must[[]byte](t)(opened(t, 3).Tell(1))))))
	for name, test := range map[string]struct {
		path, token string
		body        []byte
		heads       []string
		status      int
	}{
		"no token":          {"/v1/exports", "", good, nil, 401},
		"wrong token":       {"/v1/exports", "Bearer shop-0123456789abcdee", good, nil, 401},
		"another right":     {"/v1/exports", peer, good, nil, 403},
		"another service":   {"/v1/exports", shop, encoded(t, "till", 1, 3), nil, 403},
		"one of two":        {"/v1/exports", shop, framed(good, encoded(t, "till", 1, 3)), []string{"Content-Type", ExportsType}, 403},
		"a cut export":      {"/v1/exports", shop, good[:len(good)-1], nil, 400},
		"a cut frame":       {"/v1/exports", shop, framed(good)[:20], []string{"Content-Type", ExportsType}, 400},
		"one of two bad":    {"/v1/exports", shop, framed(good, good[1:]), []string{"Content-Type", ExportsType}, 400},
		"no frame":          {"/v1/exports", shop, nil, []string{"Content-Type", ExportsType}, 400},
		"too long":          {"/v1/exports", shop, make([]byte, 1<<16+1), nil, 413},
		"too long unzipped": {"/v1/exports", shop, zipped(make([]byte, 1<<20)), []string{"Content-Encoding", "gzip"}, 413},
		"no gzip":           {"/v1/exports", shop, good, []string{"Content-Encoding", "gzip"}, 400},
		"a cut gzip":        {"/v1/exports", shop, zipped(good)[:30], []string{"Content-Encoding", "gzip"}, 400},
		"another coding":    {"/v1/exports", shop, good, []string{"Content-Encoding", "br"}, 415},
		"JSON":              {"/v1/metrics", shop, []byte("{}"), []string{"Content-Type", "application/json"}, 415},
		"no request":        {"/v1/metrics", shop, []byte("{}"), []string{"Content-Type", otlp.Type}, 400},
		"a message of whom": {"/v1/messages", lame, message, nil, 403},
		"a sender's right":  {"/v1/messages", shop, message, nil, 403},
		"misdirected":       {"/v1/messages", peer, misdirected, nil, 421},
		"an Ack":            {"/v1/messages", peer, answer, nil, 421},
		"no message":        {"/v1/messages", peer, good, nil, 400},
		"nothing there":     {"/v2/exports", shop, good, nil, 404},
		"another method":    {"/v1/table", shop, good, nil, 405},
	} {
		status, said, head := got(t, http.MethodPost, url+test.path, test.body, append(test.heads, "Authorization", test.token)...)
		if status != test.status || said == "" || head.Get(gossip.IDHeader) != "1" {
			t.Errorf("%s: %d %q", name, status, said)
		}
	}
	if points, _ := s.Held.Counts(); points != 0 {
		t.Error("taken:", points)
	}
	status, said, head := got(t, http.MethodPost, url+"/v1/messages", message, "Authorization", peer)
	if status != 200 || head.Get("Content-Type") != gossip.MessageType {
		t.Error(status, said)
	}
	if points, _ := s.Held.Counts(); points != 1 {
		t.Error(points)
	}
}

// That another process has this id now, since it began anew, is no warning: its peers ask for it then.
func TestAPeersRestartIsNoWarning(t *testing.T) {
	var out bytes.Buffer
	_, url := served(t, 1, func(s *Server) { s.Log = logs.New(&out, logs.Info, false) })
	message := must[[]byte](t)(opened(t, 2).Tell(3))
	if status, said, _ := got(t, http.MethodPost, url+"/v1/messages", message); status != 421 {
		t.Fatal(status, said)
	}
	if lines := out.String(); strings.Contains(lines, `"warn"`) || !strings.Contains(lines, `"status":421`) {
		t.Fatal(lines)
	}
}

// Who may send nothing fills no log by long paths.
func TestPathsAreCutInTheLog(t *testing.T) {
	var out bytes.Buffer
	_, url := served(t, 1, func(s *Server) { s.Log = logs.New(&out, logs.Info, false) })
	if status, said, _ := got(t, http.MethodGet, url+"/"+strings.Repeat("a", 5000), nil); status != 404 {
		t.Fatal(status, said)
	}
	if line := out.String(); len(line) > 600 || !strings.Contains(line, `aaa.."`) {
		t.Fatal(line)
	}
}

// A peer that is missing is named as gone by who may send messages for all services.
func TestWhoMayNameAPeerAsGone(t *testing.T) {
	file := filepath.Join(t.TempDir(), "tokens")
	if err := os.WriteFile(file, []byte(rights), 0o600); err != nil {
		t.Fatal(err)
	}
	s, url := served(t, 1, func(s *Server) {
		s.Tokens = must[*tokens.File](t)(tokens.Open(file))
		s.Gossip.Known = []gossip.Seen{{URL: "http://10.0.0.7:9464", Folder: "f"}, {URL: "http://10.0.0.8:9464"}}
	})
	const shop, peer, lame = "Bearer shop-0123456789abcdef", "Bearer peer-0123456789abcdef", "Bearer lame-0123456789abcdef"
	for _, test := range []struct {
		token, query string
		status, left int
	}{
		{"", "?peer=10.0.0.7:9464", 401, 2}, {shop, "?peer=10.0.0.7:9464", 403, 2}, {lame, "?peer=10.0.0.7:9464", 403, 2},
		{peer, "", 400, 2}, {peer, "?peer=", 400, 2}, {peer, "?peer=10.0.0.9:9464", 404, 2}, {peer, "?peer=10.0.0.7:9464", 200, 1},
		{peer, "?peer=10.0.0.7:9464", 404, 1}, {peer, "?peer=http://10.0.0.8:9464/", 200, 0},
	} {
		status, said, _ := got(t, http.MethodPost, url+gossip.GonePath+test.query, nil, "Authorization", test.token)
		if status != test.status || len(s.Gossip.Apart()) != test.left {
			t.Errorf("%v: %d %s %v", test, status, said, s.Gossip.Apart())
		}
	}
}

// Peers ask who archives what: two of one service would each adopt.
func TestWhoArchivesWhatIsTold(t *testing.T) {
	_, url := served(t, 1, func(s *Server) { s.Gossip.Archives = []string{"shop"} })
	if status, said, _ := got(t, http.MethodGet, url+gossip.PeersPath, nil); status != 200 || !strings.Contains(said, `"archives":["shop"]`) {
		t.Fatal(status, said)
	}
}

func opened(t *testing.T, id uint32) *held.Held {
	t.Helper()
	return must[*held.Held](t)(held.New(must[kotskhin.Gateway](t)(kotskhin.OpenGateway(id)), held.Limits{Points: 9, Streams: 9}))
}

// An Ack that anybody posts would say that a peer has what it has not.
func TestAnAckIsNotTaken(t *testing.T) {
	s, url := served(t, 1, nil)
	other := opened(t, 2)
	answer := must[[]byte](t)(other.Hand(must[kotskhin.Message](t)(kotskhin.DecodeMessage(must[[]byte](t)(s.Held.Tell(2))))))
	if status, said, _ := got(t, http.MethodPost, url+"/v1/messages", answer); status != 400 || !strings.Contains(said, "Ack") {
		t.Fatal(status, said)
	}
}

func TestAFullGatewaySays503(t *testing.T) {
	s, url := served(t, 1, nil)
	for instance := uint64(0); instance < 101; instance++ {
		status, said, head := got(t, http.MethodPost, url+"/v1/exports", encoded(t, "shop", instance, 1))
		if wanted := map[bool]int{true: 200, false: 503}[instance < 100]; status != wanted || wanted == 503 && head.Get("Retry-After") == "" {
			t.Fatal(instance, status, said)
		}
	}
	if points, _ := s.Held.Counts(); points != 100 {
		t.Fatal(points)
	}
}

// until waits for an answer of this status.
func until(t *testing.T, status int, ask func() (int, string, http.Header)) {
	t.Helper()
	for turn := 0; ; turn++ {
		found, said, _ := ask()
		if found == status {
			return
		}
		if turn == 6000 {
			t.Fatal(found, said)
		}
		time.Sleep(10 * time.Millisecond)
	}
}

// Who sends slowly has little of what may be under way, and gives it back.
func TestWhatIsUnderWayIsBounded(t *testing.T) {
	s, url := served(t, 1, func(s *Server) { s.Limits.InFlight = 2 * pieceBytes })
	good := encoded(t, "shop", 1, 3)
	post := func() (int, string, http.Header) { return got(t, http.MethodPost, url+"/v1/exports", good) }
	until(t, 200, post)
	var slow []*io.PipeWriter
	for i := 0; i < 2; i++ {
		reader, writer := io.Pipe()
		slow = append(slow, writer)
		go func() {
			if answer, err := http.Post(url+"/v1/exports", "", reader); err == nil {
				answer.Body.Close()
			}
		}()
		go writer.Write(good)
	}
	// Nobody else posts until both have their piece: one that came while another had it would be refused, and be gone.
	for turn := 0; atomic.LoadInt64(&s.inFlight.left) > 0; turn++ {
		if turn == 6000 {
			t.Fatal("left:", atomic.LoadInt64(&s.inFlight.left))
		}
		time.Sleep(10 * time.Millisecond)
	}
	if status, said, _ := post(); status != 429 {
		t.Fatal(status, said)
	}
	for _, writer := range slow {
		writer.CloseWithError(io.ErrUnexpectedEOF)
	}
	until(t, 200, post)
}

// A gateway that has peers shows nothing before it heard them, or knows that they are away.
func TestReadyOncePeersAreHeard(t *testing.T) {
	_, peer := served(t, 2, func(s *Server) { s.Process = "q" })
	s, url := served(t, 1, func(s *Server) {
		s.Gossip.Peers, s.Gossip.Timeout, s.Gossip.LongestPause = []string{peer}, 5*time.Second, time.Second
		s.Gossip.Process = "p"
	})
	for _, path := range []string{"/readyz", "/metrics", "/v1/table"} {
		if status, said, _ := got(t, http.MethodGet, url+path, nil); status != 503 || !strings.Contains(said, peer) {
			t.Fatal(path, status, said)
		}
	}
	if status, _, _ := got(t, http.MethodGet, url+"/healthz", nil); status != 200 {
		t.Fatal(status)
	}
	s.Gossip.NoteHeard(2)
	until(t, 200, func() (int, string, http.Header) { return got(t, http.MethodGet, url+"/readyz", nil) })
	s.Drain()
	if status, _, _ := got(t, http.MethodGet, url+"/readyz", nil); status != 503 {
		t.Fatal(status)
	}
}

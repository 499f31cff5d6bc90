// Package server is a gateway's HTTP: it reads bodies within limits, has the kit read what they say, and answers with a reason.
package server

import (
	"errors"
	"net/http"
	"runtime"
	"runtime/debug"
	"strconv"
	"strings"
	"sync/atomic"
	"time"

	"kotskhin.example/service/internal/figures"
	"kotskhin.example/service/internal/gossip"
	"kotskhin.example/service/internal/held"
	"kotskhin.example/service/internal/logs"
	"kotskhin.example/service/internal/otlp"
	"kotskhin.example/service/internal/store"
	"kotskhin.example/service/internal/tokens"
)

// Limits are those of requests.
type Limits struct {
	// Body and Message bound one body; InFlight all that are read at a time.
	Body, Message, InFlight int64
	// Patience is how long after its start a gateway waits for peers before it shows what it holds.
	Patience time.Duration
}

// Server answers requests.
type Server struct {
	Held    *held.Held
	Store   *store.Store
	Gossip  *gossip.Gossip
	Tokens  *tokens.File
	Figures *figures.Figures
	Log     *logs.Logger
	Limits  Limits
	Process string

	began    time.Time
	inFlight budget
	workers  chan struct{}
	draining int32
	isReady  int32
	late     logs.Seldom
	left     *leftOut
	routes   map[string]*route
}

// A route is what is done at a path.
type route struct {
	path, method string
	right        tokens.Right
	// An empty right is that of anybody.
	isOTLP bool
	do     func(w http.ResponseWriter, request *http.Request, grant tokens.Grant) error
}

// Handler is what answers, once the server is whole.
func (s *Server) Handler() http.Handler {
	s.began, s.inFlight.left = time.Now(), s.Limits.InFlight
	s.left = newLeftOut(s.Figures, s.Log)
	s.workers = make(chan struct{}, 2*runtime.GOMAXPROCS(0))
	s.routes = map[string]*route{}
	for _, r := range []*route{
		{"/v1/exports", http.MethodPost, tokens.Write, false, s.exports},
		{"/v1/metrics", http.MethodPost, tokens.Write, true, s.otlp},
		{gossip.MessagesPath, http.MethodPost, tokens.Peer, false, s.messages},
		{"/metrics", http.MethodGet, tokens.Read, false, s.metrics},
		{"/v1/table", http.MethodGet, tokens.Read, false, s.table},
		{"/v1/rows", http.MethodGet, tokens.Read, false, s.rows},
		{"/v1/streams", http.MethodGet, tokens.Read, false, s.streams},
		{gossip.PeersPath, http.MethodGet, "", false, s.peers},
		{gossip.GonePath, http.MethodPost, tokens.Peer, false, s.gone},
		{"/healthz", http.MethodGet, "", false, s.healthz},
		{"/readyz", http.MethodGet, "", false, s.readyz},
	} {
		s.routes[r.path] = r
	}
	return http.HandlerFunc(s.serve)
}

// Drain has /readyz say that no more is to be sent here.
func (s *Server) Drain() { atomic.StoreInt32(&s.draining, 1) }

// Tell logs what waits for its time to be logged, before the gateway ends.
func (s *Server) Tell() { s.left.tell() }

// An answer that was begun, and its status.
type answer struct {
	http.ResponseWriter
	status int
}

func (a *answer) WriteHeader(status int) {
	if a.status == 0 {
		a.status = status
	}
	a.ResponseWriter.WriteHeader(status)
}

func (a *answer) Write(bytes []byte) (int, error) {
	if a.status == 0 {
		a.status = http.StatusOK
	}
	return a.ResponseWriter.Write(bytes)
}

func (s *Server) serve(w http.ResponseWriter, request *http.Request) {
	began, to := time.Now(), &answer{ResponseWriter: w}
	r, path := s.routes[request.URL.Path], request.URL.Path
	if r == nil {
		path = "other"
	}
	w.Header().Set(gossip.IDHeader, strconv.FormatUint(uint64(s.Held.ID()), 10))
	err := s.answerSafely(to, request, r)
	if err != nil {
		s.refuse(to, r, path, err)
	}
	took := time.Since(began)
	s.Figures.Add(figures.Requests, figures.Labels("path", path, "status", strconv.Itoa(to.status)), 1)
	s.Figures.Add(figures.Seconds, figures.Labels("path", path), took.Seconds())
	if err != nil {
		log := s.Log.Warn
		if to.status == http.StatusMisdirectedRequest {
			// (a peer does not know yet that this gateway began anew, and asks for its id now)
			log = s.Log.Info
		}
		log("refused", "method", request.Method, "path", cut(request.URL.Path), "from", request.RemoteAddr, "status", to.status, "why", err)
		return
	}
	s.Log.Debug("answered", "method", request.Method, "path", request.URL.Path, "from", request.RemoteAddr, "status", to.status,
		"seconds", took.Seconds())
}

// cut is a path as a log has it: who may send nothing could fill a disk by long ones.
func cut(path string) string {
	const most = 200
	if len(path) > most {
		return path[:most] + ".."
	}
	return path
}

// answerSafely answers a request. A fault of this program ends that request alone.
func (s *Server) answerSafely(to *answer, request *http.Request, r *route) (err error) {
	defer func() {
		if why := recover(); why != nil {
			s.Log.Error("a fault of this program", "why", why, "stack", string(debug.Stack()))
			err = refusal{http.StatusInternalServerError, "fault", "a fault of the gateway"}
		}
	}()
	return s.answer(to, request, r)
}

func (s *Server) answer(to *answer, request *http.Request, r *route) error {
	if r == nil {
		return refusal{http.StatusNotFound, "not_found", "there is nothing at this path"}
	}
	if request.Method != r.method && !(r.method == http.MethodGet && request.Method == http.MethodHead) {
		to.Header().Set("Allow", r.method)
		return refusal{http.StatusMethodNotAllowed, "method", "this path wants " + r.method}
	}
	grant := tokens.Everything
	if r.right != "" {
		var err error
		if grant, err = s.Tokens.Now().Of(request, r.right); err != nil {
			return err
		}
	}
	return r.do(to, request, grant)
}

// refuse answers with a reason, unless an answer has begun.
func (s *Server) refuse(to *answer, r *route, path string, err error) {
	why := refusalOf(err)
	s.Figures.Add(figures.Refused, figures.Labels("path", path, "reason", why.reason), 1)
	if to.status != 0 {
		return
	}
	head := to.Header()
	switch why.status {
	case http.StatusUnauthorized:
		head.Set("WWW-Authenticate", "Bearer")
	case http.StatusTooManyRequests, http.StatusServiceUnavailable:
		head.Set("Retry-After", "1")
	}
	if r != nil && r.method == http.MethodPost {
		// (what is left of the body is not waited for)
		head.Set("Connection", "close")
	}
	if r != nil && r.isOTLP {
		head.Set("Content-Type", otlp.Type)
		to.WriteHeader(why.status)
		to.Write(otlp.Status(why.status, why.why))
		return
	}
	head.Set("Content-Type", "text/plain; charset=utf-8")
	head.Set("X-Content-Type-Options", "nosniff")
	to.WriteHeader(why.status)
	to.Write([]byte(strings.TrimSuffix(why.why, "\n") + "\n"))
}

// withWorker does what takes a processor, for as many requests at a time as there are workers.
func (s *Server) withWorker(request *http.Request, work func() error) error {
	select {
	case s.workers <- struct{}{}:
	case <-request.Context().Done():
		return refusal{http.StatusServiceUnavailable, "gone", "the sender is gone"}
	}
	defer func() { <-s.workers }()
	return work()
}

// A refusal is a status, a word by which refusals are counted, and what is said.
type refusal struct {
	status      int
	reason, why string
}

func (r refusal) Error() string { return r.why }

// isOf tells whether an error is one of these.
func isOf(err error, targets ...error) bool {
	for _, target := range targets {
		if errors.Is(err, target) {
			return true
		}
	}
	return false
}

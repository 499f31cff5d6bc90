package gossip

import (
	"context"
	"encoding/json"
	"io"
	"net/http"
	"net/http/httptest"
	"strings"
	"sync/atomic"
	"testing"
	"time"

	kotskhin "kotskhin.example/sdk/go"
	"kotskhin.example/sdk/go/attribute"
	"kotskhin.example/service/internal/held"
)

func must[T any](t *testing.T) func(made T, err error) T {
	return func(made T, err error) T {
		t.Helper()
		if err != nil {
			t.Fatal(err)
		}
		return made
	}
}

func opened(t *testing.T, id uint32) *held.Held {
	t.Helper()
	return must[*held.Held](t)(held.New(must[kotskhin.Gateway](t)(kotskhin.OpenGateway(id)), held.Limits{Points: 1000, Streams: 10}))
}

func take(t *testing.T, h *held.Held, instance uint64) {
	t.Helper()
	plan := must[kotskhin.Plan](t)(kotskhin.NewPlan(kotskhin.Instrument{Scope: "app", Name: "requests", Kind: kotskhin.Counter}))
	writer := must[kotskhin.Writer](t)(kotskhin.StartWriter(plan, "shop", kotskhin.Instance{Low: instance}, 100))
	if err := writer.Measure(0, must[kotskhin.Attributes](t)(kotskhin.NewAttributes(attribute.String("route", "/"))), 1); err != nil {
		t.Fatal(err)
	}
	brought := must[*held.Brought](t)(held.Bring([]kotskhin.Export{must[kotskhin.Export](t)(writer.Collect(200))}, nil))
	if _, err := h.Take(brought); err != nil {
		t.Fatal(err)
	}
}

// The worked example of docs/design/BYTES.md begins a message like this one.
func TestEnvelopes(t *testing.T) {
	h := opened(t, 300)
	take(t, h, 1)
	delta := must[[]byte](t)(h.Tell(2))
	if found, isRead := envelopeOf(delta); !isRead || found != (envelope{kindDelta, 300, 2, 1}) {
		t.Fatal(found, isRead)
	}
	if found, isRead := envelopeOf(must[[]byte](t)(h.Encode())); !isRead || found != (envelope{kindAll, 300, 300, 0}) {
		t.Fatal(found, isRead)
	}
	answer := must[[]byte](t)(opened(t, 2).Hand(must[kotskhin.Message](t)(kotskhin.DecodeMessage(delta))))
	if found, isRead := envelopeOf(answer); !isRead || found != (envelope{kindAck, 2, 300, 1}) || !IsAck(answer) || IsAck(delta) {
		t.Fatal(found, isRead)
	}
	for _, bytes := range []string{
		"", "KTSM", "KTSM\x02\x01", "KTSM\x02\x01\x01\x03", "KTSM\x02\x01\x01\x01\x80", "KTSK\x02\x01\x01\x02\x01",
	} {
		if found, isRead := envelopeOf([]byte(bytes)); isRead {
			t.Error(bytes, found)
		}
	}
}

func TestPausesGrow(t *testing.T) {
	g := &Gossip{Interval: time.Second, LongestPause: 8 * time.Second}
	for failures, wanted := range []time.Duration{1, 2, 4, 8, 8, 8} {
		for turn := 0; turn < 100; turn++ {
			if found := g.pause(failures); found < wanted*time.Second*3/4 || found > wanted*time.Second*5/4 {
				t.Fatal(failures, found)
			}
		}
	}
	if found := g.pause(1 << 40); found > 10*time.Second {
		t.Fatal(found)
	}
}

// A peer in this test: what it holds changes where it begins anew.
type other struct {
	t      *testing.T
	now    atomic.Value
	answer func(answer []byte) []byte
}

type life struct {
	held    *held.Held
	process string
}

func (o *other) begin(id uint32, process string) *held.Held {
	made := opened(o.t, id)
	o.now.Store(life{made, process})
	return made
}

func (o *other) ServeHTTP(w http.ResponseWriter, request *http.Request) {
	living := o.now.Load().(life)
	if request.URL.Path == PeersPath {
		json.NewEncoder(w).Encode(Who{ID: living.held.ID(), Process: living.process})
		return
	}
	body, _ := io.ReadAll(request.Body)
	message, err := kotskhin.DecodeMessage(body)
	if _, to, _, _ := message.Envelope(); err == nil && to != living.held.ID() {
		w.Header().Set(IDHeader, "1234")
		w.WriteHeader(http.StatusMisdirectedRequest)
		return
	}
	answer, err := living.held.Hand(message)
	if err != nil {
		o.t.Error(err)
	}
	w.Write(o.answer(answer))
}

func until(t *testing.T, what string, holds func() bool) {
	t.Helper()
	for turn := 0; !holds(); turn++ {
		if turn == 6000 {
			t.Fatal(what)
		}
		time.Sleep(10 * time.Millisecond)
	}
}

func points(h *held.Held) int {
	look, err := h.Look()
	if err != nil {
		return -1
	}
	return look.Points
}

func TestAPeerIsToldAndBeginsAnew(t *testing.T) {
	peer := &other{t: t, answer: func(answer []byte) []byte { return answer }}
	first := peer.begin(7, "one")
	at := httptest.NewServer(peer)
	own := opened(t, 1)
	take(t, own, 1)
	g := &Gossip{Held: own, Process: "own", Peers: []string{at.URL}, Interval: 10 * time.Millisecond, LongestPause: 50 * time.Millisecond,
		Timeout: 5 * time.Second}
	ctx, end := context.WithCancel(context.Background())
	g.Begin(ctx)
	until(t, "it is not told", func() bool { return points(first) == 1 })
	second := peer.begin(8, "two")
	take(t, own, 2)
	until(t, "the one that begins anew is not told all", func() bool { return points(second) == 2 })
	until(t, "it is not near", func() bool { return g.States()[0].State == Near && g.States()[0].ID == 8 })
	if unheard, apart := g.UnheardPeers(), g.Apart(); len(unheard) != 1 || len(apart) != 1 {
		t.Fatal(unheard, apart)
	}
	g.NoteHeard(8)
	if unheard, apart := g.UnheardPeers(), g.Apart(); len(unheard) != 0 || len(apart) != 0 {
		t.Fatal(unheard, apart)
	}
	// (one that was heard long ago may have been brought what is not known here)
	g.lock.Lock()
	g.heard[8] = time.Now().Add(-time.Minute)
	g.lock.Unlock()
	if unheard, apart := g.UnheardPeers(), g.Apart(); len(unheard) != 0 || len(apart) != 1 {
		t.Fatal(unheard, apart)
	}
	g.NoteHeard(8)
	at.Close()
	until(t, "it is not away", func() bool {
		return g.States()[0].State == Away && g.States()[0].Failure != "" && g.States()[0].Lag > 0 && len(g.Apart()) == 1
	})
	end()
	g.Wait()
}

// What is no Ack of what was sent is not handed on.
func TestOtherAnswersAreRefused(t *testing.T) {
	own := opened(t, 1)
	take(t, own, 1)
	third := must[[]byte](t)(opened(t, 3).Hand(must[kotskhin.Message](t)(kotskhin.DecodeMessage(must[[]byte](t)(own.Tell(3))))))
	for name, answer := range map[string]func(answer []byte) []byte{
		"nothing": func([]byte) []byte { return nil }, "of another": func([]byte) []byte { return third },
		"of a later number": func(answer []byte) []byte {
			made := append([]byte{}, answer...)
			made[len(messageHead)+3]++
			return made
		},
		"a delta": func([]byte) []byte { made, _ := opened(t, 7).Tell(1); return made },
	} {
		peer := &other{t: t, answer: answer}
		peer.begin(7, "one")
		at := httptest.NewServer(peer)
		g := &Gossip{Held: own, Process: "own", Peers: []string{at.URL}, Interval: time.Millisecond, LongestPause: time.Millisecond,
			Timeout: 5 * time.Second}
		ctx, end := context.WithCancel(context.Background())
		g.Begin(ctx)
		until(t, name, func() bool { return g.States()[0].Failed > 1 })
		if state := g.States()[0]; state.Sent != 0 || !strings.Contains(state.Failure, "not the Ack") {
			t.Error(name, state)
		}
		end()
		g.Wait()
		at.Close()
	}
	if again := must[[]byte](t)(own.Tell(7)); len(again) < 30 {
		t.Fatal("something was acknowledged")
	}
}

// A gateway that finds itself among its peers tells itself nothing, and does not wait for itself.
func TestAGatewayKnowsItself(t *testing.T) {
	peer := &other{t: t, answer: func([]byte) []byte { t.Error("it is told"); return nil }}
	peer.begin(1, "own")
	at := httptest.NewServer(peer)
	defer at.Close()
	_, port, _ := strings.Cut(strings.TrimPrefix(at.URL, "http://"), ":")
	g := &Gossip{Held: opened(t, 1), Process: "own", Peers: []string{"127.0.0.1:" + port}, Interval: time.Millisecond,
		LongestPause: time.Second, Timeout: 5 * time.Second, Refresh: time.Millisecond}
	ctx, end := context.WithCancel(context.Background())
	g.Begin(ctx)
	until(t, "it does not know itself", func() bool { return len(g.States()) == 1 && g.States()[0].State == Self })
	if unheard, apart := g.UnheardPeers(), g.Apart(); len(unheard) != 0 || len(apart) != 0 {
		t.Fatal(unheard, apart)
	}
	end()
	g.Wait()
}

package gossip

import (
	"context"
	"errors"
	"fmt"
	"math/rand"
	"net/http"
	"strings"
	"sync"
	"time"
)

// A peer is another gateway, as this one reaches it.
type peer struct {
	url string
	// The name under which it was looked up, which its certificate has.
	name   string
	client *http.Client
	wake   chan struct{}
	end    context.CancelFunc

	lock  sync.Mutex
	known knowledge
}

// knowledge is what is known of a peer.
type knowledge struct {
	id       uint32
	process  string
	folder   string
	archives []string
	isSelf   bool
	failures int
	err      error
	// When an exchange began that ended well, and how many did and did not.
	acked                      time.Time
	exchanges, allFailed, sent uint64
}

// State is what a peer is at the moment.
type State struct {
	URL     string  `json:"url"`
	ID      uint32  `json:"id,omitempty"`
	State   string  `json:"state"`
	Lag     float64 `json:"lag_seconds"`
	Sent    uint64  `json:"messages"`
	Failed  uint64  `json:"failed"`
	Failure string  `json:"failure,omitempty"`
	// Archives are the services whose ended incarnations it adopts.
	Archives []string `json:"archives,omitempty"`
}

// States of a peer.
const (
	New  = "new"
	Near = "near"
	Away = "away"
	Self = "self"
	// Missing is a peer that was listed once, and is not any more.
	Missing = "missing"
)

func (p *peer) read() knowledge {
	p.lock.Lock()
	defer p.lock.Unlock()
	return p.known
}

func (p *peer) note(change func(k *knowledge)) {
	p.lock.Lock()
	defer p.lock.Unlock()
	change(&p.known)
}

func (p *peer) state(began time.Time) State {
	known := p.read()
	state := State{URL: p.url, ID: known.id, State: Near, Sent: known.exchanges, Failed: known.allFailed, Archives: known.archives}
	since := known.acked
	if since.IsZero() {
		since = began
	}
	state.Lag = time.Since(since).Seconds()
	switch {
	case known.isSelf:
		state.State, state.Lag = Self, 0
	case known.failures > 0:
		state.State, state.Failure = Away, known.err.Error()
	case known.acked.IsZero():
		state.State = New
	}
	return state
}

// awaken has a peer asked at once.
func (p *peer) awaken() {
	select {
	case p.wake <- struct{}{}:
	default:
	}
}

// pause is how long it is to the next message: the interval, and longer with each failure in a row, up to the longest pause.
func (g *Gossip) pause(failures int) time.Duration {
	pause := g.Interval
	for turn := 0; turn < failures && pause < g.LongestPause; turn++ {
		pause *= 2
	}
	if failures > 0 && pause > g.LongestPause {
		pause = g.LongestPause
	}
	// (so that gateways which began together do not go on together)
	return pause*3/4 + time.Duration(rand.Int63n(int64(pause)/2+1))
}

// run tells a peer what it has not, again and again, until the context ends.
func (g *Gossip) run(ctx context.Context, p *peer) {
	for {
		began := time.Now()
		err := g.exchange(ctx, p)
		if ctx.Err() != nil {
			return
		}
		g.noteExchange(p, began, err)
		known := p.read()
		wait := time.NewTimer(g.pause(known.failures))
		select {
		case <-wait.C:
		case <-p.wake:
			wait.Stop()
			// (whoever wakes a peer often does not have it asked more often than in the interval)
			if left := g.Interval - time.Since(began); left > 0 && known.failures == 0 {
				sleep(ctx, left)
			}
		case <-ctx.Done():
			wait.Stop()
			return
		}
	}
}

func sleep(ctx context.Context, length time.Duration) {
	wait := time.NewTimer(length)
	defer wait.Stop()
	select {
	case <-wait.C:
	case <-ctx.Done():
	}
}

func (g *Gossip) noteExchange(p *peer, began time.Time, err error) {
	before := p.read().failures
	p.note(func(k *knowledge) {
		if err != nil {
			k.failures++
			k.allFailed++
			k.err = err
			return
		}
		k.failures, k.err = 0, nil
		if !k.isSelf {
			k.acked = began
			k.exchanges++
		}
	})
	switch {
	case err != nil && before == 0:
		g.Log.Warn("a peer is away", "peer", p.url, "why", err)
	case err != nil:
		g.Log.Debug("a peer is still away", "peer", p.url, "why", err, "failures", before+1)
	case before > 0:
		g.Log.Info("a peer is back", "peer", p.url, "id", p.read().id, "failures", before)
	}
}

// errMoved says that a peer has another id than the one that was asked.
var errMoved = errors.New("the peer has another id")

// exchange tells a peer what it has not, and takes in its answer.
func (g *Gossip) exchange(ctx context.Context, p *peer) error {
	ctx, cancel := context.WithTimeout(ctx, g.Timeout)
	defer cancel()
	if known := p.read(); known.process == "" {
		if err := g.meet(ctx, p); err != nil {
			return err
		}
	}
	err := g.tell(ctx, p)
	if !errors.Is(err, errMoved) {
		return err
	}
	if err := g.meet(ctx, p); err != nil {
		return err
	}
	return g.tell(ctx, p)
}

// meet asks a peer who it is.
func (g *Gossip) meet(ctx context.Context, p *peer) error {
	who, err := g.who(ctx, p)
	if err != nil {
		return err
	}
	if who.ID == g.Held.ID() && who.Process != g.Process {
		g.Log.Error("two gateways drew one id: start one of them anew", "peer", p.url, "id", who.ID)
		return fmt.Errorf("%s has the id %d of this gateway", p.url, who.ID)
	}
	isSelf := who.Process == g.Process
	if !isSelf && g.Folder != "" && who.Folder == g.Folder {
		g.Log.Error("two gateways have one folder's name: one folder is a copy of the other, and wants its file `name` removed", "peer", p.url)
		return fmt.Errorf("%s has a copy of the folder of this gateway", p.url)
	}
	g.noteSeen(g.roster.meet(Seen{URL: p.url, Folder: who.Folder}, isSelf))
	p.note(func(k *knowledge) {
		k.id, k.process, k.isSelf, k.folder, k.archives = who.ID, who.Process, isSelf, who.Folder, who.Archives
	})
	g.Log.Info("a peer is met", "peer", p.url, "id", who.ID, "self", isSelf)
	return nil
}

// tell sends one message to a peer that is known, and hands the answer to the node.
func (g *Gossip) tell(ctx context.Context, p *peer) error {
	known := p.read()
	if known.isSelf {
		return nil
	}
	message, err := g.Held.Tell(known.id)
	if err != nil {
		return err
	}
	answer, err := g.post(ctx, p, message)
	if err != nil {
		return err
	}
	p.note(func(known *knowledge) { known.sent += uint64(len(message)) })
	return g.takeAnswer(known.id, message, answer)
}

// takeAnswer hands an answer on, once it is seen to be the Ack of what was sent.
func (g *Gossip) takeAnswer(id uint32, message, answer []byte) error {
	sent, _ := envelopeOf(message)
	if sent.kind == kindAll && len(answer) == 0 {
		return nil
	}
	got, isRead := envelopeOf(answer)
	if !isRead || got.kind != kindAck || got.from != uint64(id) || got.to != uint64(g.Held.ID()) || got.number != sent.number {
		return errors.New("the answer is not the Ack of what was sent")
	}
	return g.Held.TakeAnswer(answer)
}

// short is an answer's text, for a log.
func short(text []byte) string {
	const most = 200
	if len(text) > most {
		text = text[:most]
	}
	return strings.TrimSpace(string(text))
}

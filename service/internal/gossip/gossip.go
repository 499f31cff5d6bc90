// Package gossip tells other gateways what they have not: to each peer a delta, again and again, whose answer is handed back.
//
// A peer that is away is asked with growing pauses. Nothing is kept for it meanwhile: what it has not, the node knows by a number.
package gossip

import (
	"context"
	"crypto/tls"
	"net"
	"net/http"
	"net/url"
	"sort"
	"strings"
	"sync"
	"time"

	"kotskhin.example/service/internal/held"
	"kotskhin.example/service/internal/logs"
)

// Gossip is what gateways tell each other, from the side of one.
type Gossip struct {
	Held    *held.Held
	Log     *logs.Logger
	Process string
	// Peers are URLs, and names with a port, which are looked up again and again: each address is a peer then.
	Peers                                    []string
	Interval, LongestPause, Timeout, Refresh time.Duration
	// Folder is the name of that in which this gateway keeps its state; empty where it keeps none.
	Folder string
	// Archives are the services whose ended incarnations it adopts.
	Archives []string
	// Known are the peers that were seen before this start, and Remember keeps those that are seen; nil where nothing is kept.
	Known    []Seen
	Remember func(all []Seen) error
	// Token is what this gateway shows to peers now; empty, and nil, is none.
	Token func() string
	// TLS says how to speak to peers that are looked up, and to those by https; nil without TLS.
	TLS *tls.Config

	began  time.Time
	roster *roster
	lock   sync.Mutex
	peers  map[string]*peer
	// Names that could not be looked up the last time.
	unresolved map[string]bool
	// When a message of an id came last.
	heard map[uint32]time.Time
	ended sync.WaitGroup
}

// Begin begins to speak to the peers, until the context ends.
func (g *Gossip) Begin(ctx context.Context) {
	g.began, g.peers, g.heard = time.Now(), map[string]*peer{}, map[uint32]time.Time{}
	g.roster, g.unresolved = newRoster(g.Known, g.Remember), map[string]bool{}
	names := g.namesToResolve()
	g.set(ctx, g.resolvePeers(ctx, names))
	if len(names) == 0 {
		return
	}
	g.ended.Add(1)
	go func() {
		defer g.ended.Done()
		for ctx.Err() == nil {
			sleep(ctx, g.Refresh)
			g.set(ctx, g.resolvePeers(ctx, names))
		}
	}()
}

// Wait returns once nothing is said any more.
func (g *Gossip) Wait() { g.ended.Wait() }

// namesToResolve are the peers that are to be looked up.
func (g *Gossip) namesToResolve() (names []string) {
	for _, peer := range g.Peers {
		if !strings.Contains(peer, "://") {
			names = append(names, peer)
		}
	}
	return names
}

// A target is a URL to speak to, and the name under which it was looked up.
type target struct{ url, name string }

// resolvePeers looks up all peers as they are now. A name that can't be looked up keeps those that it had.
func (g *Gossip) resolvePeers(ctx context.Context, names []string) []target {
	var all []target
	for _, peer := range g.Peers {
		if strings.Contains(peer, "://") {
			all = append(all, target{url: strings.TrimRight(peer, "/")})
		}
	}
	scheme := "http"
	if g.TLS != nil {
		scheme = "https"
	}
	for _, peer := range names {
		host, port, _ := net.SplitHostPort(peer)
		addresses, err := net.DefaultResolver.LookupHost(ctx, host)
		g.noteResolved(host, err == nil)
		if err != nil && ctx.Err() == nil {
			g.Log.Warn("a name of peers can't be looked up", "name", host, "why", err)
			all = append(all, g.targetsUnder(host)...)
		}
		for _, address := range addresses {
			all = append(all, target{(&url.URL{Scheme: scheme, Host: net.JoinHostPort(address, port)}).String(), host})
		}
	}
	return all
}

func (g *Gossip) noteResolved(host string, ok bool) {
	g.lock.Lock()
	defer g.lock.Unlock()
	delete(g.unresolved, host)
	if !ok {
		g.unresolved[host] = true
	}
}

func (g *Gossip) targetsUnder(name string) (all []target) {
	g.lock.Lock()
	defer g.lock.Unlock()
	for url, p := range g.peers {
		if p.name == name {
			all = append(all, target{url, name})
		}
	}
	return all
}

// set begins to speak to peers that are new, and ends with those that are gone.
func (g *Gossip) set(ctx context.Context, all []target) {
	var urls []string
	for _, to := range all {
		urls = append(urls, to.url)
	}
	// (before any of them is spoken to: whoever is met stands in the place of an address)
	g.noteSeen(g.roster.list(urls))
	g.lock.Lock()
	defer g.lock.Unlock()
	wanted := map[string]bool{}
	for _, to := range all {
		wanted[to.url] = true
		if g.peers[to.url] == nil && ctx.Err() == nil {
			g.peers[to.url] = g.start(ctx, to)
		}
	}
	for url, p := range g.peers {
		if !wanted[url] {
			g.noteUnlisted(p)
			p.end()
			p.client.CloseIdleConnections()
			delete(g.peers, url)
		}
	}
}

func (g *Gossip) noteUnlisted(p *peer) {
	if p.read().isSelf {
		g.Log.Info("this gateway itself is not listed any more", "at", p.url)
		return
	}
	g.Log.Warn("a peer is not listed any more: it counts as away until it is back, there or elsewhere, or named as gone", "peer", p.url)
}

func (g *Gossip) start(ctx context.Context, to target) *peer {
	transport := &http.Transport{
		MaxIdleConnsPerHost: 1, IdleConnTimeout: 90 * time.Second, TLSHandshakeTimeout: g.Timeout,
		DialContext: (&net.Dialer{Timeout: g.Timeout}).DialContext,
	}
	if g.TLS != nil {
		transport.TLSClientConfig = g.TLS.Clone()
		transport.TLSClientConfig.ServerName = to.name
	}
	ctx, end := context.WithCancel(ctx)
	p := &peer{url: to.url, name: to.name, client: &http.Client{Transport: transport}, wake: make(chan struct{}, 1), end: end}
	// (a POST would be made a GET, which brings nothing and succeeds)
	p.client.CheckRedirect = func(*http.Request, []*http.Request) error { return http.ErrUseLastResponse }
	g.ended.Add(1)
	go func() {
		defer g.ended.Done()
		g.run(ctx, p)
	}()
	return p
}

func (g *Gossip) all() []*peer {
	g.lock.Lock()
	defer g.lock.Unlock()
	peers := make([]*peer, 0, len(g.peers))
	for _, p := range g.peers {
		peers = append(peers, p)
	}
	sort.Slice(peers, func(i, j int) bool { return peers[i].url < peers[j].url })
	return peers
}

// States are the peers as they are, by their URLs.
func (g *Gossip) States() []State {
	states := []State{}
	for _, p := range g.all() {
		states = append(states, p.state(g.began))
	}
	for _, p := range g.missing() {
		why := "it is not listed any more: nothing is adopted until it is back, or named as gone"
		states = append(states, State{URL: p.URL, State: Missing, Failure: why})
	}
	return states
}

// NoteHeard notes that a message of another gateway was taken in. One that was not heard before may be a peer that came back, so those that
// are away are asked at once.
func (g *Gossip) NoteHeard(from uint32) {
	g.lock.Lock()
	_, isKnown := g.heard[from]
	// (ids come from whoever may send messages; more than these are none of gateways that live)
	if !isKnown && len(g.heard) >= 1<<16 {
		g.heard = map[uint32]time.Time{}
	}
	g.heard[from] = time.Now()
	g.lock.Unlock()
	if isKnown {
		return
	}
	for _, p := range g.all() {
		if p.read().failures > 0 {
			p.awaken()
		}
	}
}

// UnheardPeers are those that were reached, or not tried yet, and whose messages have not come: what they hold may be more than this
// gateway has.
func (g *Gossip) UnheardPeers() (urls []string) {
	for _, p := range g.all() {
		known := p.read()
		if known.isSelf || known.failures > 0 || known.process != "" && !g.heardAt(known.id).IsZero() {
			continue
		}
		urls = append(urls, p.url)
	}
	return urls
}

// Apart are the peers that are away or missing, names that can't be looked up, and peers of which no message came for longer than pauses
// grow: what senders brought to them may not be known here.
func (g *Gossip) Apart() (urls []string) {
	longest := 2*g.LongestPause + g.Timeout
	for _, p := range g.all() {
		known := p.read()
		if !known.isSelf && (known.failures > 0 || known.process == "" || time.Since(g.heardAt(known.id)) > longest) {
			urls = append(urls, p.url)
		}
	}
	for _, p := range g.missing() {
		urls = append(urls, p.URL)
	}
	g.lock.Lock()
	defer g.lock.Unlock()
	for name := range g.unresolved {
		urls = append(urls, name)
	}
	return urls
}

// Rivals are the peers that adopt incarnations of a service, too.
func (g *Gossip) Rivals(service string) (urls []string) {
	for _, p := range g.all() {
		known := p.read()
		for _, other := range known.archives {
			if other == service && !known.isSelf {
				urls = append(urls, p.url)
			}
		}
	}
	return urls
}

// heardAt is when a message of an id came last; zero where none came.
func (g *Gossip) heardAt(id uint32) time.Time {
	g.lock.Lock()
	defer g.lock.Unlock()
	return g.heard[id]
}

// TellLast tells each peer that is near what it has not, once more, before the gateway ends.
func (g *Gossip) TellLast(ctx context.Context) {
	var ended sync.WaitGroup
	for _, p := range g.all() {
		if known := p.read(); known.isSelf || known.failures > 0 || known.process == "" {
			continue
		}
		ended.Add(1)
		go func(p *peer) {
			defer ended.Done()
			if err := g.exchange(ctx, p); err != nil {
				g.Log.Warn("a peer was not told the last of it", "peer", p.url, "why", err)
			}
		}(p)
	}
	ended.Wait()
}

package main

import (
	"context"
	"crypto/rand"
	"crypto/tls"
	"crypto/x509"
	"encoding/binary"
	"encoding/hex"
	"errors"
	"fmt"
	"net"
	"net/http"
	"os"
	"os/signal"
	"syscall"
	"time"

	kotskhin "kotskhin.example/sdk/go"
	"kotskhin.example/service/internal/archivist"
	"kotskhin.example/service/internal/figures"
	"kotskhin.example/service/internal/gossip"
	"kotskhin.example/service/internal/held"
	"kotskhin.example/service/internal/logs"
	"kotskhin.example/service/internal/server"
	"kotskhin.example/service/internal/settings"
	"kotskhin.example/service/internal/store"
	"kotskhin.example/service/internal/tokens"
)

// How long the end may take that waits for requests under way, and for peers that are told the last of it.
const patience = 10 * time.Second

// How often is looked whether the file of tokens changed. What changed is read at the second look that finds it so.
const tokenLooks = time.Second

// A running gateway.
type running struct {
	settings *settings.Settings
	log      *logs.Logger
	held     *held.Held
	store    *store.Store
	gossip   *gossip.Gossip
	server   *server.Server
	figures  *figures.Figures
	// The name of the folder of the state, and the peers that were seen before.
	folder string
	seen   []gossip.Seen
}

func serve(ctx context.Context, s *settings.Settings, log *logs.Logger) error {
	r := &running{settings: s, log: log, figures: figures.New()}
	if s.IsUnsafe {
		log.Warn("it adopts earlier than is safe beside peers, as " + settings.Unsafe + " says: what a peer took may be hidden")
	}
	known, speaks, err := r.security()
	if err != nil {
		return err
	}
	defer r.readAgainAndAgain(known)()
	// (what is damaged or taken is told before the state is read, which may take long)
	listener, err := net.Listen("tcp", s.Listen)
	if err != nil {
		return err
	}
	defer listener.Close()
	if err := r.load(); err != nil {
		return err
	}
	defer r.store.Close()
	process, err := newProcess()
	if err != nil {
		return err
	}
	r.gossip = &gossip.Gossip{
		Held: r.held, Log: log, Process: process, Peers: s.Peers, Interval: s.GossipInterval, LongestPause: s.GossipLongestPause,
		Timeout: s.GossipTimeout, Refresh: s.PeerRefresh, TLS: towardsPeers(speaks),
		Token:  func() string { return known.Now().PeerToken() },
		Folder: r.folder, Archives: s.Archive, Known: r.seen, Remember: func(all []gossip.Seen) error { return r.store.KeepPeers(all) },
	}
	r.server = &server.Server{
		Held: r.held, Store: r.store, Gossip: r.gossip, Tokens: known, Figures: r.figures, Log: log, Process: process,
		Limits: server.Limits{Body: s.MaxBody, Message: s.MaxMessage, InFlight: s.MaxInFlight, Patience: s.Patience},
	}
	return r.run(ctx, listener, speaks)
}

func newProcess() (string, error) {
	var drawn [16]byte
	_, err := rand.Read(drawn[:])
	return hex.EncodeToString(drawn[:]), err
}

// newID draws the id of a node: that of one gateway's state, from one start to its end.
func newID() (uint32, error) {
	var drawn [4]byte
	_, err := rand.Read(drawn[:])
	return binary.BigEndian.Uint32(drawn[:]), err
}

// security is who may do what, and how TLS is spoken; nil where it is not.
func (r *running) security() (known *tokens.File, speaks *tls.Config, err error) {
	s := r.settings
	if s.TokenFile != "" {
		if known, err = tokens.Open(s.TokenFile); err != nil {
			return nil, nil, err
		}
	}
	if s.TLSCert == "" {
		return known, nil, nil
	}
	pair, err := tls.LoadX509KeyPair(s.TLSCert, s.TLSKey)
	if err != nil {
		return nil, nil, err
	}
	speaks = &tls.Config{Certificates: []tls.Certificate{pair}, MinVersion: tls.VersionTLS12}
	if s.ClientCA == "" {
		return known, speaks, nil
	}
	content, err := os.ReadFile(s.ClientCA)
	if err != nil {
		return nil, nil, err
	}
	speaks.ClientCAs = x509.NewCertPool()
	if !speaks.ClientCAs.AppendCertsFromPEM(content) {
		return nil, nil, fmt.Errorf("%s has no certificate", s.ClientCA)
	}
	speaks.ClientAuth = tls.RequireAndVerifyClientCert
	return known, speaks, nil
}

// readAgainAndAgain reads the file of tokens once it changes, and at each SIGHUP, until what it gives is called. Where there is no file a
// SIGHUP ends the process, as it ends others.
func (r *running) readAgainAndAgain(known *tokens.File) (end func()) {
	if known == nil {
		return func() {}
	}
	signals := make(chan os.Signal, 1)
	signal.Notify(signals, syscall.SIGHUP)
	ctx, cancel := context.WithCancel(context.Background())
	ended := make(chan struct{})
	go func() {
		defer close(ended)
		known.Watch(ctx, signals, tokenLooks, func(err error) {
			if err != nil {
				r.log.Error("the tokens were not read again, and are what they were", "why", err)
			} else {
				r.log.Info("the tokens were read again", "file", r.settings.TokenFile)
			}
		})
	}()
	return func() { signal.Stop(signals); cancel(); <-ended }
}

// towardsPeers is how TLS is spoken to peers: with the same certificate, and they may be certified by the same.
func towardsPeers(speaks *tls.Config) *tls.Config {
	if speaks == nil {
		return nil
	}
	config := &tls.Config{Certificates: speaks.Certificates, MinVersion: tls.VersionTLS12}
	if speaks.ClientCAs != nil {
		config.RootCAs = speaks.ClientCAs
	}
	return config
}

// load reads what was kept, under an id that is drawn anew.
func (r *running) load() (err error) {
	id, err := newID()
	if err != nil {
		return err
	}
	if r.settings.State != "" {
		if r.store, err = store.Open(r.settings.State, r.log); err != nil {
			return err
		}
	}
	if r.folder, err = r.store.Name(); err != nil {
		// (a full disk lets a gateway begin all the same)
		r.log.Error("the folder has no name, so peers know this gateway by its address", "folder", r.settings.State, "why", err)
	}
	if err := r.store.Peers(&r.seen); err != nil {
		return err
	}
	gateway, err := kotskhin.OpenGateway(id)
	if err != nil {
		return err
	}
	join := func(bytes []byte) error { return merge(gateway, bytes) }
	if err := r.store.Load(join, join); err != nil {
		return err
	}
	if r.held, err = held.New(gateway, held.Limits{Points: r.settings.MaxPoints, Streams: r.settings.MaxStreams}); err != nil {
		return err
	}
	r.held.TellDoubled(func(found held.Doubled) {
		r.log.Error("two archives adopted one incarnation, so it counts twice: two gateways archived one service",
			"incarnations", found.Count, "first", found.First)
	})
	return nil
}

// merge joins what was kept: an export, or what a gateway held. What can't be read changes nothing.
func merge(gateway kotskhin.Gateway, bytes []byte) error {
	if len(bytes) > 3 && bytes[3] == 'K' {
		export, err := kotskhin.DecodeExport(bytes)
		if err != nil {
			return err
		}
		defer export.Close()
		_, err = gateway.Take(export)
		return err
	}
	_, err := gateway.MergeBytes(bytes)
	return err
}

// run answers until the context ends, and then ends in order.
func (r *running) run(ctx context.Context, listener net.Listener, speaks *tls.Config) error {
	bounded := &server.Connections{Listener: listener, Most: int64(r.settings.MaxConnections), IsTLS: speaks != nil}
	archivist := r.archivist()
	r.showFigures(bounded, archivist)
	stop := begin([]part{{r.gossip.Begin, r.gossip.Wait}, loop(r.saveAgainAndAgain), loop(archivist.Run)})
	defer stop()
	answers := r.newHTTPServer(speaks)
	failed := make(chan error, 1)
	go func() { failed <- answerAll(answers, bounded) }()
	points, streams := r.held.Counts()
	r.log.Info("listening", "address", listener.Addr(), "id", r.held.ID(), "points", points, "streams", streams, "version", version())
	select {
	case err := <-failed:
		return err
	case <-ctx.Done():
	}
	r.log.Info("ending", "drain", r.settings.Drain)
	r.server.Drain()
	time.Sleep(r.settings.Drain)
	return r.end(answers, stop)
}

// showFigures has pages show what is counted elsewhere.
func (r *running) showFigures(connections *server.Connections, archivist *archivist.Archivist) {
	r.figures.Reads(r.server.Show)
	r.figures.Reads(func(set func(family, labels string, value float64)) {
		set(figures.Connected, "", float64(connections.Open()))
	})
	r.figures.Reads(archivist.Show)
}

func (r *running) newHTTPServer(speaks *tls.Config) *http.Server {
	s := r.settings
	return &http.Server{
		Handler: r.server.Handler(), TLSConfig: speaks, ReadTimeout: s.ReadTimeout, ReadHeaderTimeout: s.ReadTimeout,
		WriteTimeout: s.WriteTimeout, IdleTimeout: s.IdleTimeout, MaxHeaderBytes: 64 << 10, ErrorLog: quiet(r.log),
	}
}

func answerAll(answers *http.Server, listener net.Listener) error {
	if answers.TLSConfig != nil {
		return answers.ServeTLS(listener, "", "")
	}
	return answers.Serve(listener)
}

// A part works beside the answers: from begin until its context ends. Once it has ended wait returns.
type part struct {
	begin func(ctx context.Context)
	wait  func()
}

// loop is a part that runs on a goroutine of its own.
func loop(run func(ctx context.Context)) part {
	ended := make(chan struct{})
	begin := func(ctx context.Context) {
		go func() {
			defer close(ended)
			run(ctx)
		}()
	}
	return part{begin, func() { <-ended }}
}

// begin begins parts in their order. What it gives ends all, and waits for those first that began last; it may be called again.
func begin(parts []part) (stop func()) {
	ctx, cancel := context.WithCancel(context.Background())
	for _, part := range parts {
		part.begin(ctx)
	}
	return func() {
		cancel()
		for i := len(parts) - 1; i >= 0; i-- {
			parts[i].wait()
		}
	}
}

// archivist adopts what has ended of the services that it is told.
func (r *running) archivist() *archivist.Archivist {
	s := r.settings
	return &archivist.Archivist{
		Held: r.held, Store: r.store, Gossip: r.gossip, Figures: r.figures, Log: r.log,
		Services: s.Archive, After: s.ArchiveAfter, Every: s.Looks(),
	}
}

// end waits for requests under way, tells peers the last of it, and saves the state.
func (r *running) end(answers *http.Server, stop func()) error {
	waits, cancel := context.WithTimeout(context.Background(), patience)
	defer cancel()
	if err := answers.Shutdown(waits); err != nil {
		r.log.Warn("requests were under way at the end", "why", err)
		answers.Close()
	}
	stop()
	told, cancel := context.WithTimeout(context.Background(), patience)
	defer cancel()
	r.gossip.TellLast(told)
	r.server.Tell()
	err := r.store.Save(r.held.Encode)
	r.log.Info("ended", "saved", r.store != nil && err == nil)
	if err != nil && !errors.Is(err, context.Canceled) {
		return err
	}
	return nil
}

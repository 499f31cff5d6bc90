package gossip

import (
	"bytes"
	"context"
	"encoding/json"
	"errors"
	"net"
	"net/http"
	"net/http/httptest"
	"reflect"
	"strings"
	"testing"
	"time"

	"kotskhin.example/service/internal/logs"
)

// kept is a roster on a disk that may be full, and what is on it.
type kept struct {
	all    []Seen
	isFull bool
}

var errFull = errors.New("full")

func (k *kept) remember(all []Seen) error {
	if k.isFull {
		return errFull
	}
	k.all = all
	return nil
}

func sets(words ...string) map[string]bool {
	made := map[string]bool{}
	for _, word := range words {
		made[word] = true
	}
	return made
}

func urlsOf(all []Seen) (urls []string) {
	for _, peer := range all {
		urls = append(urls, peer.URL)
	}
	return urls
}

func TestWhoWasListedIsMissed(t *testing.T) {
	disk := &kept{}
	r := newRoster(nil, disk.remember)
	for _, err := range []error{
		r.list([]string{"a", "b", "c"}), r.meet(Seen{"a", "fa"}, false), r.meet(Seen{"b", ""}, false), r.meet(Seen{"c", "fc"}, true),
	} {
		if err != nil {
			t.Fatal(err)
		}
	}
	for _, test := range []struct {
		urls, folders map[string]bool
		missing       []string
	}{
		{sets("a", "b", "c"), sets("fa", "fc"), nil}, {sets("b"), sets("fa", "fc"), nil}, {sets("a", "b"), sets("fc"), []string{"a"}},
		{sets("a"), sets("fa", "fc"), []string{"b"}}, {sets(), sets("fc"), []string{"a", "b"}},
	} {
		// (what comes back from the disk is the same)
		for _, it2 := range []*roster{r, newRoster(disk.all, nil)} {
			if found := urlsOf(it2.missing(test.urls, test.folders)); !reflect.DeepEqual(found, test.missing) {
				t.Error(test, found)
			}
		}
	}
}

// A folder is known again at another address, and its earlier address is no peer's any more.
func TestAFolderMoves(t *testing.T) {
	disk := &kept{}
	r := newRoster(nil, disk.remember)
	r.list([]string{"a"})
	r.meet(Seen{"a", "f"}, false)
	r.list([]string{"a", "b"})
	r.meet(Seen{"b", "f"}, false)
	if wanted := []Seen{{"b", "f"}}; !reflect.DeepEqual(disk.all, wanted) {
		t.Fatal(disk.all)
	}
	// (an address that another folder has now: the earlier one is missed)
	r.meet(Seen{"b", "g"}, false)
	if found := r.missing(sets("b"), sets("g")); len(found) != 1 || found[0].Folder != "f" {
		t.Fatal(found)
	}
}

// This gateway itself is missed nowhere, with a folder or without.
func TestNobodyMissesHimself(t *testing.T) {
	r := newRoster(nil, nil)
	r.list([]string{"a", "b"})
	r.meet(Seen{"a", ""}, true)
	r.meet(Seen{"b", "own"}, true)
	if found := r.missing(sets(), sets("own")); len(found) != 0 {
		t.Fatal(found)
	}
}

// What a full disk does not keep is tried again, and nobody is forgotten whose end could not be kept.
func TestAFullDiskForgetsNobody(t *testing.T) {
	disk := &kept{isFull: true}
	r := newRoster(nil, disk.remember)
	if err := r.list([]string{"a"}); !errors.Is(err, errFull) {
		t.Fatal(err)
	}
	disk.isFull = false
	if err := r.list([]string{"a"}); err != nil || len(disk.all) != 1 {
		t.Fatal(err, disk.all)
	}
	disk.isFull = true
	gone := r.missing(sets(), sets())
	if err := r.forget(gone); !errors.Is(err, errFull) || len(r.missing(sets(), sets())) != 1 {
		t.Fatal(err)
	}
	disk.isFull = false
	if err := r.forget(gone); err != nil || len(r.missing(sets(), sets())) != 0 || len(disk.all) != 0 {
		t.Fatal(err, disk.all)
	}
}

// A name that can't be looked up has peers that nobody knows: they are away.
func TestWhatCantBeLookedUpIsAway(t *testing.T) {
	usual := net.DefaultResolver
	defer func() { net.DefaultResolver = usual }()
	net.DefaultResolver = &net.Resolver{PreferGo: true, Dial: func(context.Context, string, string) (net.Conn, error) {
		return nil, errors.New("there is no server of names")
	}}
	g := &Gossip{Held: opened(t, 1), Peers: []string{"gateways.test:1"}, Interval: time.Hour, LongestPause: time.Hour, Refresh: time.Hour}
	ctx, end := context.WithCancel(context.Background())
	g.Begin(ctx)
	if apart := g.Apart(); !reflect.DeepEqual(apart, []string{"gateways.test"}) || len(g.States()) != 0 {
		t.Fatal(apart, g.States())
	}
	end()
	g.Wait()
}

// Of two folders that are copies one peer would stand for the other, so neither is met.
func TestACopyOfTheFolderIsNotMet(t *testing.T) {
	who := Who{ID: 7, Process: "other", Folder: "same"}
	peer := httptest.NewServer(http.HandlerFunc(func(w http.ResponseWriter, _ *http.Request) { json.NewEncoder(w).Encode(who) }))
	defer peer.Close()
	var out bytes.Buffer
	g := &Gossip{Held: opened(t, 1), Log: logs.New(&out, logs.Error, false), Process: "own", Folder: "same", Peers: []string{peer.URL},
		Interval: time.Hour, LongestPause: time.Hour, Timeout: 5 * time.Second}
	ctx, end := context.WithCancel(context.Background())
	g.Begin(ctx)
	until(t, "it is met", func() bool { return g.States()[0].State == Away })
	end()
	g.Wait()
	if apart := g.Apart(); len(apart) != 1 || !strings.Contains(out.String(), "one folder's name") {
		t.Fatal(apart, out.String())
	}
}

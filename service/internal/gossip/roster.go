package gossip

import (
	"errors"
	"fmt"
	"sort"
	"strings"
	"sync"
)

// Seen is a peer as it is remembered: where it was, and the folder that it has.
type Seen struct {
	URL string `json:"url"`
	// Folder is drawn once for each folder of a state. It is empty of a gateway that keeps nothing, and of one that was never reached.
	Folder string `json:"folder,omitempty"`
}

// A roster has all peers that were ever listed. What senders brought to one of them may be known there alone, also once it is listed no
// more: nobody but an operator can say that it is gone for good.
//
// A folder is known again at another address, since addresses change with each start where there is a scheduler. What a gateway without a
// folder held is gone with its process, so it is known by its address.
type roster struct {
	lock sync.Mutex
	seen map[string]Seen
	// What keeps them over a restart, and whether it has all.
	remember func(all []Seen) error
	isKept   bool
}

func newRoster(known []Seen, remember func(all []Seen) error) *roster {
	r := &roster{seen: map[string]Seen{}, remember: remember, isKept: true}
	for _, s := range known {
		if s.URL != "" {
			r.seen[s.key()] = s
		}
	}
	return r
}

func (s Seen) key() string {
	if s.Folder != "" {
		return s.Folder
	}
	return s.URL
}

// list notes that peers are listed at addresses.
func (r *roster) list(urls []string) error {
	return r.change(func() {
		for _, url := range urls {
			if !r.isAt(url) {
				r.put(Seen{URL: url})
			}
		}
	})
}

func (r *roster) isAt(url string) bool {
	for _, s := range r.seen {
		if s.URL == url {
			return true
		}
	}
	return false
}

// meet notes who answers at an address: this gateway itself is missed nowhere.
func (r *roster) meet(s Seen, isSelf bool) error {
	return r.change(func() {
		if _, ok := r.seen[s.URL]; ok && (s.Folder != "" || isSelf) {
			delete(r.seen, s.URL)
			r.isKept = false
		}
		if s.Folder != "" || !isSelf {
			r.put(s)
		}
	})
}

func (r *roster) put(s Seen) {
	if known, ok := r.seen[s.key()]; !ok || known != s {
		r.seen[s.key()], r.isKept = s, false
	}
}

// change changes what is known, and keeps it. What could not be kept is tried again with the next change.
func (r *roster) change(call func()) error {
	r.lock.Lock()
	defer r.lock.Unlock()
	call()
	return r.keep()
}

func (r *roster) keep() error {
	if r.isKept || r.remember == nil {
		return nil
	}
	err := r.remember(r.all())
	r.isKept = err == nil
	return err
}

func (r *roster) all() []Seen {
	all := make([]Seen, 0, len(r.seen))
	for _, s := range r.seen {
		all = append(all, s)
	}
	sort.Slice(all, func(i, j int) bool { return all[i].URL+" "+all[i].Folder < all[j].URL+" "+all[j].Folder })
	return all
}

// missing are those that are neither at an address of these nor have a folder of these.
func (r *roster) missing(urls, folders map[string]bool) (all []Seen) {
	r.lock.Lock()
	defer r.lock.Unlock()
	for _, p := range r.all() {
		if p.Folder == "" && !urls[p.URL] || p.Folder != "" && !folders[p.Folder] {
			all = append(all, p)
		}
	}
	return all
}

// forget forgets peers for good: all of these, or none where that can't be kept.
func (r *roster) forget(gone []Seen) error {
	r.lock.Lock()
	defer r.lock.Unlock()
	for _, s := range gone {
		delete(r.seen, s.key())
	}
	r.isKept = false
	err := r.keep()
	for _, s := range gone {
		if err != nil {
			r.seen[s.key()] = s
		}
	}
	return err
}

// ErrNotMissing says that no peer is missed at an address.
var ErrNotMissing = errors.New("no peer is missed at this address")

// missing are the peers that were listed once and are not any more, at whatever address.
func (g *Gossip) missing() []Seen {
	if g.roster == nil {
		return nil
	}
	urls, folders := map[string]bool{}, map[string]bool{g.Folder: true}
	for _, p := range g.all() {
		known := p.read()
		urls[p.url], folders[known.folder] = true, true
		if known.process == "" {
			// (who is not met yet may be whoever was there, and is away until then)
			for _, folder := range g.roster.foldersAt(p.url) {
				folders[folder] = true
			}
		}
	}
	return g.roster.missing(urls, folders)
}

func (r *roster) foldersAt(url string) (folders []string) {
	r.lock.Lock()
	defer r.lock.Unlock()
	for _, s := range r.seen {
		if s.URL == url && s.Folder != "" {
			folders = append(folders, s.Folder)
		}
	}
	return folders
}

// Gone has an operator say that the peers which are missed at an address are gone for good.
func (g *Gossip) Gone(url string) error {
	var gone []Seen
	var missed []string
	address := strings.TrimRight(url, "/")
	for _, p := range g.missing() {
		missed = append(missed, p.URL)
		if p.URL == address || strings.HasSuffix(p.URL, "://"+address) {
			gone = append(gone, p)
		}
	}
	if len(gone) == 0 {
		return fmt.Errorf("%w: missed are %s", ErrNotMissing, listOrNone(missed))
	}
	err := g.roster.forget(gone)
	if err == nil {
		g.Log.Warn("a peer is gone for good, as was told", "peer", url)
	}
	return err
}

func listOrNone(words []string) string {
	if len(words) == 0 {
		return "none"
	}
	return strings.Join(words, ", ")
}

// noteSeen logs that peers are not kept over a restart.
func (g *Gossip) noteSeen(err error) {
	if err != nil {
		g.Log.Error("the peers that were seen are not on disk yet", "why", err)
	}
}

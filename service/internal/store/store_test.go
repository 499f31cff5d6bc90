package store

import (
	"bytes"
	"errors"
	"fmt"
	"os"
	"path/filepath"
	"strings"
	"sync"
	"testing"
)

// loaded is what a folder gives: its state, and what the journals kept.
func loaded(t *testing.T, folder string) (*Store, string, []string) {
	t.Helper()
	s, err := Open(folder, nil)
	if err != nil {
		t.Fatal(err)
	}
	var state string
	var kept []string
	refuse := func(bytes []byte) error {
		if strings.HasPrefix(string(bytes), "bad") {
			return errors.New("it is bad")
		}
		return nil
	}
	if err := s.Load(
		func(bytes []byte) error { state = string(bytes); return refuse(bytes) },
		func(bytes []byte) error { kept = append(kept, string(bytes)); return refuse(bytes) },
	); err != nil {
		t.Fatal(err)
	}
	return s, state, kept
}

func keep(t *testing.T, s *Store, what string) {
	t.Helper()
	isTaken := false
	if err := s.Keep([]byte(what), func() error { isTaken = true; return nil }); err != nil || !isTaken {
		t.Fatal(err, isTaken)
	}
}

func names(t *testing.T, folder, part string) (found []string) {
	t.Helper()
	entries, err := os.ReadDir(folder)
	if err != nil {
		t.Fatal(err)
	}
	for _, entry := range entries {
		if strings.Contains(entry.Name(), part) {
			found = append(found, entry.Name())
		}
	}
	return found
}

func TestWhatWasKeptComesBack(t *testing.T) {
	folder := filepath.Join(t.TempDir(), "state")
	s, state, kept := loaded(t, folder)
	if state != "" || kept != nil {
		t.Fatal(state, kept)
	}
	keep(t, s, "one")
	keep(t, s, "")
	if err := s.Save(func() ([]byte, error) { return []byte("all"), nil }); err != nil {
		t.Fatal(err)
	}
	keep(t, s, "two")
	// (a killed process closes nothing)
	s.lock.Close()
	s, state, kept = loaded(t, folder)
	if state != "all" || fmt.Sprint(kept) != "[two]" {
		t.Fatal(state, kept)
	}
	if err := s.Save(func() ([]byte, error) { return nil, errors.New("no memory") }); err == nil {
		t.Fatal("saved")
	}
	if last := s.Last(); last.Failures != 1 || last.Err == nil {
		t.Fatal(last)
	}
	s.lock.Close()
	s, state, kept = loaded(t, folder)
	if state != "all" || fmt.Sprint(kept) != "[two]" {
		t.Fatal(state, kept)
	}
	if err := s.Save(func() ([]byte, error) { return []byte("all and two"), nil }); err != nil || len(names(t, folder, "journal")) != 1 {
		t.Fatal(err, names(t, folder, "journal"))
	}
	if last := s.Last(); last.Bytes != 11 || last.Failures != 0 || last.Err != nil {
		t.Fatal(last)
	}
}

func TestAFolderIsOfOneProcess(t *testing.T) {
	folder := t.TempDir()
	s, _, _ := loaded(t, folder)
	if _, err := Open(folder, nil); err == nil {
		t.Fatal("two have it")
	}
	if err := s.Close(); err != nil {
		t.Fatal(err)
	}
	if err := s.Keep(nil, func() error { t.Error("taken"); return nil }); !errors.Is(err, ErrDisk) {
		t.Fatal(err)
	}
	loaded(t, folder)
}

// Each cut of the last record is a call that never ended; what stands before it is read.
func TestACutJournal(t *testing.T) {
	whole := append([]byte(journalHead), recordOf([]byte("one"))...)
	whole = append(whole, recordOf([]byte("other"))...)
	for end := range whole {
		var kept []string
		records, isCut, err := replay(whole[:end], func(bytes []byte) error { kept = append(kept, string(bytes)); return nil })
		wanted := 0
		if end >= len(journalHead)+recordHead+3 {
			wanted = 1
		}
		isWhole := end == len(journalHead) || end == len(journalHead)+recordHead+3
		if err != nil || records != wanted || len(kept) != wanted || isCut == isWhole {
			t.Fatal(end, records, kept, isCut, err)
		}
	}
}

// A changed byte is told; of the last record it is as if it was cut.
func TestADamagedJournalIsSetAside(t *testing.T) {
	for at, wanted := range map[int]string{2: "", len(journalHead) + recordHead: "", len(journalHead) + 2*recordHead + 4: "one"} {
		folder := t.TempDir()
		s, _, _ := loaded(t, folder)
		for _, what := range []string{"one", "two", "three"} {
			keep(t, s, what)
		}
		s.lock.Close()
		name := filepath.Join(folder, "journal.1")
		content, err := os.ReadFile(name)
		if err != nil {
			t.Fatal(err)
		}
		content[at] ^= 1
		if err := os.WriteFile(name, content, 0o600); err != nil {
			t.Fatal(err)
		}
		s, _, kept := loaded(t, folder)
		if strings.Join(kept, " ") != wanted || len(names(t, folder, "damaged")) != 1 {
			t.Fatal(at, kept, names(t, folder, ""))
		}
		s.Close()
	}
}

func TestADamagedStateIsSetAside(t *testing.T) {
	folder := t.TempDir()
	os.WriteFile(filepath.Join(folder, "state.ktsm"), []byte("bad"), 0o600)
	os.WriteFile(filepath.Join(folder, "state.part"), []byte("half"), 0o600)
	loaded(t, folder)
	if found := names(t, folder, "state"); len(found) != 1 || !strings.HasPrefix(found[0], "state.ktsm.damaged-") {
		t.Fatal(found)
	}
}

// Goroutines that keep at once find all of it again, beside savings.
func TestGoroutinesKeepAtOnce(t *testing.T) {
	folder := t.TempDir()
	s, _, _ := loaded(t, folder)
	var lock sync.Mutex
	taken := map[string]bool{}
	var hands sync.WaitGroup
	for hand := 0; hand < 8; hand++ {
		hands.Add(1)
		go func(hand int) {
			defer hands.Done()
			for i := 0; i < 50; i++ {
				what := fmt.Sprintf("%d-%d", hand, i)
				if err := s.Keep([]byte(what), func() error {
					lock.Lock()
					defer lock.Unlock()
					taken[what] = true
					return nil
				}); err != nil {
					t.Error(err)
				}
			}
		}(hand)
	}
	for i := 0; i < 5; i++ {
		if err := s.Save(func() ([]byte, error) {
			lock.Lock()
			defer lock.Unlock()
			var all []string
			for item := range taken {
				all = append(all, item)
			}
			return []byte(strings.Join(all, " ")), nil
		}); err != nil {
			t.Error(err)
		}
	}
	hands.Wait()
	s.lock.Close()
	_, state, kept := loaded(t, folder)
	found := map[string]bool{}
	for _, item := range append(strings.Fields(state), kept...) {
		found[item] = true
	}
	if len(found) != 400 {
		t.Fatal(len(found))
	}
}

// A file that can't grow refuses, and stays whole.
func TestAFullDisk(t *testing.T) {
	full, err := os.OpenFile("/dev/full", os.O_WRONLY, 0)
	if err != nil {
		t.Skip(err)
	}
	s, _, _ := loaded(t, t.TempDir())
	keep(t, s, "one")
	good := s.current.file
	s.current.file = full
	err = s.Keep([]byte("two"), func() error { t.Error("taken"); return nil })
	if !errors.Is(err, ErrDisk) {
		t.Fatal(err)
	}
	s.current.file = good
	// (a device can't be cut, so nothing is added to this journal any more; the next one is whole)
	if err := s.Save(func() ([]byte, error) { return []byte("all"), nil }); err != nil {
		t.Fatal(err)
	}
	keep(t, s, "three")
	if !bytes.HasSuffix(mustRead(t, s.path(journalOf(s.number))), []byte("three")) {
		t.Fatal("it is not there")
	}
}

func mustRead(t *testing.T, name string) []byte {
	t.Helper()
	content, err := os.ReadFile(name)
	if err != nil {
		t.Fatal(err)
	}
	return content
}

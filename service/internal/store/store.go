// Package store keeps a gateway's state in a folder, so that what was taken comes back after a kill.
//
// The file state.ktsm has all that was held at some time: it is written beside, synced and renamed. What is taken later is added to a
// journal, and synced, before the sender is told. Each time the state is saved a new journal begins, and those before it are removed.
package store

import (
	"errors"
	"fmt"
	"os"
	"path/filepath"
	"sort"
	"strconv"
	"strings"
	"sync"
	"syscall"
	"time"

	"kotskhin.example/service/internal/logs"
)

const (
	stateName   = "state.ktsm"
	partName    = "state.part"
	lockName    = "lock"
	journalName = "journal."
)

// ErrDisk says that something could not be kept.
var ErrDisk = errors.New("it could not be kept on disk")

// Store is a folder that one process has. A nil one keeps nothing.
type Store struct {
	folder string
	log    *logs.Logger
	lock   *os.File

	// Whoever keeps something and then takes it in holds the gate, so that a new journal begins between, and not within.
	gate    sync.RWMutex
	current *journal
	number  uint64

	saving sync.Mutex
	told   sync.Mutex
	saved  Saved
}

// Saved is how the last saving went.
type Saved struct {
	At       time.Time
	Bytes    int
	Failures uint64
	Err      error
}

// Open takes a folder, which is made where there is none. Another process may not have it.
func Open(folder string, log *logs.Logger) (*Store, error) {
	if err := os.MkdirAll(folder, 0o700); err != nil {
		return nil, err
	}
	lock, err := os.OpenFile(filepath.Join(folder, lockName), os.O_CREATE|os.O_RDWR, 0o600)
	if err != nil {
		return nil, err
	}
	if err := syscall.Flock(int(lock.Fd()), syscall.LOCK_EX|syscall.LOCK_NB); err != nil {
		lock.Close()
		return nil, fmt.Errorf("another process has %s: %w", folder, err)
	}
	return &Store{folder: folder, log: log, lock: lock}, nil
}

func (s *Store) path(name string) string { return filepath.Join(s.folder, name) }

// Load gives what is kept to two functions: first the state, then what each record of the journals kept. What is damaged is told and set
// aside: of a state nothing is read then, of a journal the records before the damage.
func (s *Store) Load(state, kept func(bytes []byte) error) error {
	if s == nil {
		return nil
	}
	os.Remove(s.path(partName))
	content, err := os.ReadFile(s.path(stateName))
	if err != nil && !os.IsNotExist(err) {
		return err
	}
	if err == nil {
		if why := state(content); why != nil {
			s.setAside(stateName, why)
		} else {
			s.log.Info("state read", "bytes", len(content))
		}
	}
	numbers, err := s.journals()
	if err != nil {
		return err
	}
	for _, number := range numbers {
		if err := s.loadJournal(number, kept); err != nil {
			return err
		}
		s.number = number
	}
	return s.begin()
}

func (s *Store) loadJournal(number uint64, kept func(bytes []byte) error) error {
	name := journalOf(number)
	content, err := os.ReadFile(s.path(name))
	if err != nil {
		return err
	}
	records, isCut, why := replay(content, kept)
	s.log.Info("journal read", "file", name, "records", records, "cut", isCut)
	if why != nil {
		s.setAside(name, why)
	}
	return nil
}

// setAside renames a file that is damaged, so that somebody may look at it and no later start meets it.
func (s *Store) setAside(name string, why error) {
	aside := fmt.Sprintf("%s.damaged-%d", name, time.Now().UnixNano())
	err := os.Rename(s.path(name), s.path(aside))
	s.log.Error("a damaged file is set aside", "file", s.path(name), "as", aside, "why", why, "renamed", err == nil)
}

func journalOf(number uint64) string { return fmt.Sprintf("%s%d", journalName, number) }

// journals are the numbers of those that are there, in their order.
func (s *Store) journals() ([]uint64, error) {
	entries, err := os.ReadDir(s.folder)
	if err != nil {
		return nil, err
	}
	var numbers []uint64
	for _, entry := range entries {
		if !strings.HasPrefix(entry.Name(), journalName) {
			continue
		}
		if number, err := strconv.ParseUint(strings.TrimPrefix(entry.Name(), journalName), 10, 62); err == nil {
			numbers = append(numbers, number)
		}
	}
	sort.Slice(numbers, func(i, j int) bool { return numbers[i] < numbers[j] })
	return numbers, nil
}

// begin begins the next journal.
func (s *Store) begin() error {
	name := s.path(journalOf(s.number + 1))
	journal, err := newJournal(name)
	if err != nil {
		return fmt.Errorf("%w: %v", ErrDisk, err)
	}
	if err = s.syncFolder(); err != nil {
		journal.close()
		os.Remove(name)
		return fmt.Errorf("%w: %v", ErrDisk, err)
	}
	if s.current != nil {
		s.current.close()
	}
	s.current, s.number = journal, s.number+1
	return nil
}

func (s *Store) syncFolder() error {
	folder, err := os.Open(s.folder)
	if err != nil {
		return err
	}
	defer folder.Close()
	return folder.Sync()
}

// Keep adds bytes to the journal, and then takes in what they are. Where they can't be kept nothing is taken.
func (s *Store) Keep(bytes []byte, take func() error) error {
	return s.Adding(func(add func(bytes []byte) error) error {
		if err := add(bytes); err != nil {
			return err
		}
		return take()
	})
}

// Adding calls a function that adds bytes to the journal, and takes in what they are, in the order that it wants. No new journal begins
// meanwhile, so what it takes in is in a state that is saved, or its bytes are in a journal that is left.
func (s *Store) Adding(call func(add func(bytes []byte) error) error) error {
	if s == nil {
		return call(func([]byte) error { return nil })
	}
	s.gate.RLock()
	defer s.gate.RUnlock()
	return call(func(bytes []byte) error {
		if s.current == nil {
			return fmt.Errorf("%w: the store is closed", ErrDisk)
		}
		if err := s.current.add(bytes); err != nil {
			return fmt.Errorf("%w: %v", ErrDisk, err)
		}
		return nil
	})
}

// Save writes the state anew. The function gives it: all that was taken in so far, and maybe more.
func (s *Store) Save(state func() ([]byte, error)) error {
	if s == nil {
		return nil
	}
	s.saving.Lock()
	defer s.saving.Unlock()
	bytes, err := s.save(state)
	s.told.Lock()
	defer s.told.Unlock()
	s.saved.Err = err
	if err != nil {
		s.saved.Failures++
		return err
	}
	s.saved.At, s.saved.Bytes = time.Now(), bytes
	return nil
}

func (s *Store) save(state func() ([]byte, error)) (int, error) {
	// (once the gate was held alone, all of the journals before the new one is taken in)
	s.gate.Lock()
	var err error
	if s.current == nil || !s.current.isEmpty() {
		err = s.begin()
	}
	last := s.number - 1
	s.gate.Unlock()
	if err != nil {
		return 0, err
	}
	content, err := state()
	if err != nil {
		return 0, err
	}
	if err := s.replace(stateName, partName, content); err != nil {
		return 0, fmt.Errorf("%w: %v", ErrDisk, err)
	}
	numbers, err := s.journals()
	for _, number := range numbers {
		if number <= last {
			os.Remove(s.path(journalOf(number)))
		}
	}
	return len(content), err
}

// replace puts a file in the place of that which is there: whole, or not at all.
func (s *Store) replace(name, partName string, content []byte) error {
	part := s.path(partName)
	file, err := os.OpenFile(part, os.O_CREATE|os.O_TRUNC|os.O_WRONLY, 0o600)
	if err != nil {
		return err
	}
	if err := writeAndClose(file, content); err != nil {
		os.Remove(part)
		return err
	}
	if err := os.Rename(part, s.path(name)); err != nil {
		os.Remove(part)
		return err
	}
	return s.syncFolder()
}

// writeAndClose returns once a file's content is on disk.
func writeAndClose(file *os.File, content []byte) error {
	defer file.Close()
	if _, err := file.Write(content); err != nil {
		return err
	}
	if err := file.Sync(); err != nil {
		return err
	}
	return file.Close()
}

// Last tells how the last saving went.
func (s *Store) Last() Saved {
	if s == nil {
		return Saved{}
	}
	s.told.Lock()
	defer s.told.Unlock()
	return s.saved
}

// Journal tells how many bytes were added since the state was saved.
func (s *Store) Journal() int64 {
	if s == nil {
		return 0
	}
	s.gate.RLock()
	defer s.gate.RUnlock()
	if s.current == nil {
		return 0
	}
	return s.current.bytes()
}

// Close gives the folder up. Nothing is kept afterwards.
func (s *Store) Close() error {
	if s == nil {
		return nil
	}
	s.gate.Lock()
	defer s.gate.Unlock()
	if s.current != nil {
		s.current.close()
		s.current = nil
	}
	return s.lock.Close()
}

package store

import (
	"crypto/rand"
	"encoding/hex"
	"encoding/json"
	"fmt"
	"os"
	"strings"
)

const (
	ownName   = "name"
	peersName = "peers.json"
	asidePart = ".part"
)

// Name is that of the folder, drawn once: by it others know this gateway again at another address. A store that keeps nothing has none.
func (s *Store) Name() (string, error) {
	if s == nil {
		return "", nil
	}
	content, err := os.ReadFile(s.path(ownName))
	if name := strings.TrimSpace(string(content)); err == nil && name != "" {
		return name, nil
	}
	if err != nil && !os.IsNotExist(err) {
		return "", err
	}
	var drawn [16]byte
	if _, err := rand.Read(drawn[:]); err != nil {
		return "", err
	}
	name := hex.EncodeToString(drawn[:])
	if err := s.replace(ownName, ownName+asidePart, []byte(name+"\n")); err != nil {
		return "", fmt.Errorf("%w: %v", ErrDisk, err)
	}
	return name, nil
}

// Peers reads those that were kept into a value. A damaged file is told and set aside, as a damaged state is.
func (s *Store) Peers(into any) error {
	if s == nil {
		return nil
	}
	content, err := os.ReadFile(s.path(peersName))
	if os.IsNotExist(err) {
		return nil
	}
	if err != nil {
		return err
	}
	if err := json.Unmarshal(content, into); err != nil {
		s.setAside(peersName, err)
	}
	return nil
}

// KeepPeers keeps peers in the place of those before.
func (s *Store) KeepPeers(all any) error {
	if s == nil {
		return nil
	}
	content, err := json.Marshal(all)
	if err != nil {
		return fmt.Errorf("%w: %v", ErrDisk, err)
	}
	if err := s.replace(peersName, peersName+asidePart, append(content, '\n')); err != nil {
		return fmt.Errorf("%w: %v", ErrDisk, err)
	}
	return nil
}

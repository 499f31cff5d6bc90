package store

import (
	"errors"
	"io"
	"os"
	"path/filepath"
	"reflect"
	"testing"

	"kotskhin.example/service/internal/logs"
)

func TestTheNameOfAFolderStays(t *testing.T) {
	folder, other := t.TempDir(), t.TempDir()
	nameOf := func(folder string) string {
		t.Helper()
		s, err := Open(folder, logs.New(io.Discard, logs.Error, false))
		if err != nil {
			t.Fatal(err)
		}
		defer s.Close()
		name, err := s.Name()
		if err != nil || len(name) != 32 {
			t.Fatal(name, err)
		}
		return name
	}
	if first := nameOf(folder); first != nameOf(folder) || first == nameOf(other) {
		t.Fatal(first)
	}
	full, err := Open(t.TempDir(), logs.New(io.Discard, logs.Error, false))
	if err != nil {
		t.Fatal(err)
	}
	defer full.Close()
	os.MkdirAll(filepath.Join(full.folder, ownName+asidePart), 0o700)
	if name, err := full.Name(); name != "" || !errors.Is(err, ErrDisk) {
		t.Fatal(name, err)
	}
	if name, err := (*Store)(nil).Name(); name != "" || err != nil {
		t.Fatal(name, err)
	}
}

func TestPeersComeBack(t *testing.T) {
	folder := t.TempDir()
	s, err := Open(folder, logs.New(io.Discard, logs.Error, false))
	if err != nil {
		t.Fatal(err)
	}
	defer s.Close()
	var none, found []string
	if err := s.Peers(&none); err != nil || none != nil {
		t.Fatal(none, err)
	}
	for _, all := range [][]string{{"a"}, {"a", "b"}} {
		if err := s.KeepPeers(all); err != nil {
			t.Fatal(err)
		}
		if err := s.Peers(&found); err != nil || !reflect.DeepEqual(found, all) {
			t.Fatal(found, err)
		}
	}
	// (a damaged file is set aside)
	os.WriteFile(filepath.Join(folder, peersName), []byte("[\"a"), 0o600)
	if err := s.Peers(&none); err != nil || none != nil || len(names(t, folder, peersName+".damaged-")) != 1 {
		t.Fatal(none, err)
	}
	os.Mkdir(filepath.Join(folder, peersName), 0o700)
	os.Mkdir(filepath.Join(folder, peersName, "full"), 0o700)
	if err := s.KeepPeers(found); !errors.Is(err, ErrDisk) {
		t.Fatal(err)
	}
}

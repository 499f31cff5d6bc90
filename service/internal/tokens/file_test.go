package tokens

import (
	"context"
	"errors"
	"os"
	"path/filepath"
	"syscall"
	"testing"
	"time"
)

const (
	shop  = "shop-0123456789abcdef"
	later = "later-0123456789abcdef"
)

func written(t *testing.T, name, content string) {
	t.Helper()
	if err := os.WriteFile(name, []byte(content), 0o600); err != nil {
		t.Fatal(err)
	}
}

// replaced puts a whole file in the place of another, as an operator does.
func replaced(t *testing.T, name, content string) {
	t.Helper()
	written(t, name+".new", content)
	if err := os.Rename(name+".new", name); err != nil {
		t.Fatal(err)
	}
}

func knows(f *File, token string) bool {
	_, err := f.Now().Of(asked("Bearer "+token), Write)
	return err == nil
}

// watched is a file that is watched, what asks for it to be read, and what came of each reading.
func watched(t *testing.T, every time.Duration) (file *File, name string, asks chan<- os.Signal, told <-chan error) {
	t.Helper()
	name = filepath.Join(t.TempDir(), "tokens")
	written(t, name, shop+" write shop\n")
	file, err := Open(name)
	if err != nil {
		t.Fatal(err)
	}
	signals, came := make(chan os.Signal, 1), make(chan error, 100)
	ctx, cancel := context.WithCancel(context.Background())
	ended := make(chan struct{})
	go func() {
		defer close(ended)
		file.Watch(ctx, signals, every, func(err error) { came <- err })
	}()
	t.Cleanup(func() { cancel(); <-ended })
	return file, name, signals, came
}

func next(t *testing.T, told <-chan error) error {
	t.Helper()
	select {
	case err := <-told:
		return err
	case <-time.After(60 * time.Second):
		t.Fatal("it is not read again")
		return nil
	}
}

func TestASignalReadsItAgain(t *testing.T) {
	file, name, asks, told := watched(t, time.Hour)
	written(t, name, later+" write shop\n")
	if !knows(file, shop) || knows(file, later) {
		t.Fatal("it is read before it is asked to")
	}
	asks <- syscall.SIGHUP
	if err := next(t, told); err != nil || knows(file, shop) || !knows(file, later) {
		t.Fatal(err)
	}
	// (also one that did not change)
	asks <- syscall.SIGHUP
	if err := next(t, told); err != nil || !knows(file, later) {
		t.Fatal(err)
	}
}

func TestWhatIsBadLeavesWhatWasReadBefore(t *testing.T) {
	file, name, asks, told := watched(t, time.Hour)
	written(t, name, later+" write shop\nshort read\n")
	asks <- syscall.SIGHUP
	if err := next(t, told); err == nil || !knows(file, shop) || knows(file, later) {
		t.Fatal(err)
	}
	if err := os.Remove(name); err != nil {
		t.Fatal(err)
	}
	asks <- syscall.SIGHUP
	if err := next(t, told); !errors.Is(err, os.ErrNotExist) || !knows(file, shop) {
		t.Fatal(err)
	}
}

// A file that is replaced, taken away or put back is read once for each, and not where nothing changed.
func TestAChangeIsSeen(t *testing.T) {
	file, name, _, told := watched(t, 5*time.Millisecond)
	time.Sleep(50 * time.Millisecond)
	if len(told) != 0 {
		t.Fatal("it is read where nothing changed")
	}
	replaced(t, name, later+" write shop\n")
	if err := next(t, told); err != nil || knows(file, shop) || !knows(file, later) {
		t.Fatal(err)
	}
	replaced(t, name, shop+" write shop\n")
	if err := next(t, told); err != nil || !knows(file, shop) || knows(file, later) {
		t.Fatal(err)
	}
	if err := os.Rename(name, name+".old"); err != nil {
		t.Fatal(err)
	}
	if err := next(t, told); !errors.Is(err, os.ErrNotExist) || !knows(file, shop) {
		t.Fatal(err)
	}
	replaced(t, name, later+" write shop\n")
	if err := next(t, told); err != nil || !knows(file, later) {
		t.Fatal(err)
	}
	time.Sleep(50 * time.Millisecond)
	if len(told) != 0 {
		t.Fatal("it is read where nothing changed")
	}
}

func TestWhatCantBeReadIsNotOpened(t *testing.T) {
	if _, err := Open(filepath.Join(t.TempDir(), "none")); !errors.Is(err, os.ErrNotExist) {
		t.Fatal(err)
	}
	if (*File)(nil).Now() != nil {
		t.Fatal("no file has tokens")
	}
}

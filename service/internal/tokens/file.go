package tokens

import (
	"context"
	"os"
	"sync/atomic"
	"time"
)

// File is a file of tokens that is read again once it changes, and where a signal asks for it. One that can't be read leaves what was read
// before. A nil File has no tokens, and allows everything.
type File struct {
	name  string
	first state
	held  atomic.Value // of *Tokens
}

// Open reads the file of a name.
func Open(name string) (*File, error) {
	file := &File{name: name, first: stateOf(name)}
	if err := file.Again(); err != nil {
		return nil, err
	}
	return file, nil
}

// Now is what holds now.
func (f *File) Now() *Tokens {
	if f == nil {
		return nil
	}
	return f.held.Load().(*Tokens)
}

// Again reads it again: requests that begin from now on are held to it.
func (f *File) Again() error {
	read, err := Load(f.name)
	if err != nil {
		return err
	}
	f.held.Store(read)
	return nil
}

// Watch reads it again at each signal, and once it has changed and rests, until the context ends. What came of each reading is told.
func (f *File) Watch(ctx context.Context, signals <-chan os.Signal, every time.Duration, tell func(error)) {
	looks := time.NewTicker(every)
	defer looks.Stop()
	read, last := f.first, f.first
	for {
		isAsked := false
		select {
		case <-looks.C:
		case <-signals:
			isAsked = true
		case <-ctx.Done():
			return
		}
		// (a file that is still written to differs from one look to the next. Its state is seen before it is read: so what changes
		// meanwhile is read at a later look)
		now := stateOf(f.name)
		rests := now.is(last)
		last = now
		if isAsked || rests && !now.is(read) {
			read = now
			tell(f.Again())
		}
	}
}

// A state tells a file from what it was before; a file that is not there has none.
type state struct{ info os.FileInfo }

func stateOf(name string) state {
	info, err := os.Stat(name)
	if err != nil {
		return state{}
	}
	return state{info}
}

func (s state) is(other state) bool {
	if s.info == nil || other.info == nil {
		return s.info == other.info
	}
	return os.SameFile(s.info, other.info) && s.info.Size() == other.info.Size() && s.info.ModTime().Equal(other.info.ModTime())
}

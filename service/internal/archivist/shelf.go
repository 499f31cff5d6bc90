package archivist

import (
	"time"

	kotskhin "kotskhin.example/sdk/go"
	"kotskhin.example/service/internal/logs"
)

const (
	// Most totals of an archive. An adoption copies all of them, and seeks those whose points stand in another order, while whoever brings
	// something waits.
	mostTotals = 5000
	// How many adoptions fill an archive: each of its exports has a tombstone for each.
	mostAdopted = 1000
	// When an archive begins.
	start = 1
)

// A shelf is what there is of a service: the archive that adopts now.
type shelf struct {
	service string
	// Most totals of an archive.
	limit int
	// None where the last one is full, or nothing was to be adopted yet. Nothing is kept over a restart: what an archive adopted and has
	// not exported was not adopted.
	archive *kotskhin.Archive
	// How many tombstones its last export had, and the time of that.
	tombstones int
	exported   uint64
	// What can't be adopted as it is.
	left map[kotskhin.Incarnation]bool
	// Since when no other gateway archives it, as far as was looked, and when it was told that one does.
	alone time.Time
	told  logs.Seldom
}

func newShelf(service string) *shelf {
	return &shelf{service: service, limit: mostTotals, left: map[kotskhin.Incarnation]bool{}}
}

// open begins an archive where there is none.
func (s *shelf) open() error {
	if s.archive != nil {
		return nil
	}
	archive, err := kotskhin.BeginArchive(s.service, s.limit)
	if err != nil {
		return err
	}
	s.archive, s.tombstones, s.exported = &archive, 0, start
	return nil
}

// close gives the archive up: the next adoption is another one's. What it exported the gateway has, and shows nothing of what it adopted.
// So no other adopts that again.
func (s *shelf) close() {
	s.archive.Close()
	s.archive = nil
}

// export gives all that the archive adopted, at a time that is later than the last.
func (s *shelf) export(now uint64) (kotskhin.Export, error) {
	if now <= s.exported {
		now = s.exported + 1
	}
	export, err := s.archive.Export(now)
	if err != nil {
		return export, err
	}
	s.exported = now
	return export, nil
}

// selectWaiting gives those of incarnations that have ended that may be adopted. What was left and has moved since may be tried again.
func (s *shelf) selectWaiting(ended []kotskhin.Incarnation) (all []kotskhin.Incarnation) {
	left := map[kotskhin.Incarnation]bool{}
	for _, i := range ended {
		if s.left[keyOf(i)] {
			left[keyOf(i)] = true
		} else {
			all = append(all, i)
		}
	}
	s.left = left
	return all
}

// keyOf is an incarnation up to its newest time, however many points of it are known.
func keyOf(i kotskhin.Incarnation) kotskhin.Incarnation {
	i.Points = 0
	return i
}

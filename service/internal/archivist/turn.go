package archivist

import (
	"errors"
	"time"

	kotskhin "kotskhin.example/sdk/go"
	"kotskhin.example/service/internal/figures"
	"kotskhin.example/service/internal/held"
)

// Words for why an incarnation can't be adopted as it is.
var reasons = map[kotskhin.Code]string{
	kotskhin.ErrIsArchive: "is_archive", kotskhin.ErrAdopted: "adopted", kotskhin.ErrConflict: "conflict", kotskhin.ErrTorn: "torn",
	kotskhin.ErrUnsound: "unsound", kotskhin.ErrOutOfRange: "out_of_range", kotskhin.ErrSetLimit: "set_limit",
}

// A turn adopts what stands in front, while nobody takes anything in.
type turn struct {
	*Archivist
	*shelf
	front []kotskhin.Incarnation
	// With how many of these it is done, and which it adopted.
	done    int
	adopted []kotskhin.Incarnation
	isFull  bool
}

func (t *turn) run(add func(bytes []byte) error) error {
	return t.Held.WithAlone(func(alone held.Alone) error {
		if err := t.open(); err != nil {
			return err
		}
		fault := t.adopt(alone)
		if len(t.adopted) > 0 {
			if err := t.forget(alone, add); err != nil {
				return err
			}
		}
		if t.isFull {
			t.close()
			t.Figures.Add(figures.Sealed, figures.Labels("service", t.service), 1)
		}
		return fault
	})
}

// adopt adopts until the archive has no room, or until it took long. An error is one of memory.
func (t *turn) adopt(alone held.Alone) error {
	began := time.Now()
	for _, i := range t.front {
		if t.isFull = t.tombstones+len(t.adopted) >= mostAdopted; t.isFull || t.done > 0 && time.Since(began) > longest {
			return nil
		}
		if !alone.HasMoved(i) {
			err := t.archive.Adopt(alone.Gateway, i.Service, i.Instance, i.Start)
			switch {
			case err == nil:
				t.adopted = append(t.adopted, i)
			case errors.Is(err, kotskhin.ErrNoMemory):
				return err
			case errors.Is(err, kotskhin.ErrNoPoint):
				alone.Gone([]kotskhin.Incarnation{i})
			case t.hasNoRoom(err):
				t.isFull = true
				return nil
			default:
				t.leave(i, err)
			}
		}
		t.done++
	}
	return nil
}

// hasNoRoom tells whether an archive that adopted nothing may have the room that this one has not.
func (t *turn) hasNoRoom(err error) bool {
	isLimit := errors.Is(err, kotskhin.ErrSetLimit) || errors.Is(err, kotskhin.ErrOutOfRange)
	return isLimit && t.tombstones+len(t.adopted) > 0
}

// leave leaves an incarnation as it is, until something newer comes of it.
func (t *turn) leave(i kotskhin.Incarnation, err error) {
	reason, why := "other", kotskhin.Refused{}
	if errors.As(err, &why) && reasons[why.Code] != "" {
		reason = reasons[why.Code]
	}
	t.left[keyOf(i)] = true
	t.Figures.Add(figures.NotAdopted, figures.Labels("reason", reason), 1)
	log := t.Log.Warn
	if reason == "is_archive" {
		log = t.Log.Debug
	}
	log("an incarnation can't be adopted", "service", i.Service, "instance", i.Instance, "start", i.Start, "why", err)
}

// forget takes the export of what was adopted, and keeps it on disk.
//
// It is taken first, since nobody can say of a disk that refuses whether it has the export after all. Then another archive that adopts the
// same would count it twice after a restart; as it is taken, the next export and the next state that is saved have all of this one. A
// restart before that brings back what was adopted, and no total of it.
func (t *turn) forget(alone held.Alone, add func(bytes []byte) error) error {
	export, err := t.export(uint64(t.Held.Now().UnixNano()))
	if err != nil {
		return t.giveUp(err)
	}
	defer export.Close()
	if err := alone.Forget(export, t.adopted); err != nil {
		return t.giveUp(err)
	}
	t.tombstones += len(t.adopted)
	t.Figures.Add(figures.Adopted, figures.Labels("service", t.service), float64(len(t.adopted)))
	if err := addExport(export, add); err != nil {
		t.Log.Error("an archive's export is not on disk yet", "service", t.service, "why", err)
	}
	return nil
}

// giveUp gives up an archive whose totals have what no tombstone was told of.
func (t *turn) giveUp(err error) error {
	t.close()
	t.adopted = nil
	return err
}

func addExport(export kotskhin.Export, add func(bytes []byte) error) error {
	bytes, err := export.Encode()
	if err != nil {
		return err
	}
	return add(bytes)
}

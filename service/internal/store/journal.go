package store

import (
	"encoding/binary"
	"errors"
	"fmt"
	"hash/crc32"
	"os"
	"sync"
)

// A journal begins with these bytes. Behind them stand records: the length of what was kept, its checksum, four bytes each with the highest
// first, and what was kept.
const journalHead = "KTSJ\x01"

const recordHead = 8

var castagnoli = crc32.MakeTable(crc32.Castagnoli)

// A journal is a file to which records are added. Those of goroutines that wait at one time are written and synced together.
type journal struct {
	lock   sync.Mutex
	turned *sync.Cond
	file   *os.File
	// How many bytes of the file are whole records.
	size int64
	// Records that wait, once there are some.
	waiting   *batch
	isWriting bool
	// Why nothing is added any more.
	broken error
}

// A batch is records that are written together.
type batch struct {
	records []byte
	isDone  bool
	err     error
}

func newJournal(name string) (*journal, error) {
	file, err := os.OpenFile(name, os.O_CREATE|os.O_EXCL|os.O_WRONLY, 0o600)
	if err != nil {
		return nil, err
	}
	if _, err = file.WriteString(journalHead); err == nil {
		err = file.Sync()
	}
	if err != nil {
		file.Close()
		os.Remove(name)
		return nil, err
	}
	j := &journal{file: file, size: int64(len(journalHead))}
	j.turned = sync.NewCond(&j.lock)
	return j, nil
}

func recordOf(kept []byte) []byte {
	record := make([]byte, recordHead, recordHead+len(kept))
	binary.BigEndian.PutUint32(record, uint32(len(kept)))
	binary.BigEndian.PutUint32(record[4:], crc32.Checksum(kept, castagnoli))
	return append(record, kept...)
}

// add returns once a record is on disk, or is refused.
func (j *journal) add(kept []byte) error {
	record := recordOf(kept)
	j.lock.Lock()
	defer j.lock.Unlock()
	if j.broken != nil {
		return j.broken
	}
	if j.waiting == nil {
		j.waiting = &batch{}
	}
	own := j.waiting
	own.records = append(own.records, record...)
	for !own.isDone {
		if j.isWriting {
			j.turned.Wait()
		} else {
			j.writeBatch()
		}
	}
	return own.err
}

// writeBatch writes what waits, with the lock given up meanwhile.
func (j *journal) writeBatch() {
	own, size, broken := j.waiting, j.size, j.broken
	j.waiting, j.isWriting = nil, true
	j.lock.Unlock()
	err := broken
	if err == nil {
		broken, err = j.writeRecords(own.records, size)
	}
	j.lock.Lock()
	if err == nil {
		j.size += int64(len(own.records))
	}
	own.isDone, own.err, j.broken, j.isWriting = true, err, broken, false
	j.turned.Broadcast()
}

// writeRecords puts records behind those that are there, or leaves the file as it was. Where nobody can say how the file is, it is broken.
func (j *journal) writeRecords(records []byte, size int64) (broken, err error) {
	if _, err = j.file.WriteAt(records, size); err != nil {
		return j.cut(size), err
	}
	if err = j.file.Sync(); err != nil {
		j.cut(size)
		return fmt.Errorf("the journal can't be synced: %w", err), err
	}
	return nil, nil
}

// cut leaves of the file what it had.
func (j *journal) cut(size int64) error {
	if err := j.file.Truncate(size); err != nil {
		return fmt.Errorf("the journal can't be cut: %w", err)
	}
	return nil
}

func (j *journal) close() error { return j.file.Close() }

// bytes tells how long the journal is.
func (j *journal) bytes() int64 {
	j.lock.Lock()
	defer j.lock.Unlock()
	return j.size
}

// isEmpty tells whether the journal may be gone on with as if it was new.
func (j *journal) isEmpty() bool {
	j.lock.Lock()
	defer j.lock.Unlock()
	return j.size == int64(len(journalHead)) && j.broken == nil
}

// errDamaged says that a journal has something else than records before its end.
var errDamaged = errors.New("the journal is damaged")

// replay calls a function with what each record of a journal kept. A record that is cut at the end is that of a call that never ended: it
// is told, and is no damage.
func replay(content []byte, call func(kept []byte) error) (records int, isCut bool, err error) {
	if len(content) < len(journalHead) {
		return 0, true, nil
	}
	if string(content[:len(journalHead)]) != journalHead {
		return 0, false, fmt.Errorf("%w: it does not begin as one", errDamaged)
	}
	for at := len(journalHead); at < len(content); records++ {
		rest := content[at:]
		if len(rest) < recordHead {
			return records, true, nil
		}
		length := int64(binary.BigEndian.Uint32(rest))
		if length > int64(len(rest)-recordHead) {
			return records, true, nil
		}
		kept := rest[recordHead : recordHead+length]
		if crc32.Checksum(kept, castagnoli) != binary.BigEndian.Uint32(rest[4:]) {
			if int64(len(rest)) == recordHead+length {
				return records, true, nil
			}
			return records, false, fmt.Errorf("%w at byte %d", errDamaged, at)
		}
		if err := call(kept); err != nil {
			return records, false, fmt.Errorf("%w at byte %d: %v", errDamaged, at, err)
		}
		at += recordHead + int(length)
	}
	return records, false, nil
}

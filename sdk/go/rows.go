package kotskhin

// #include "kotskhin.h"
import "C"

import (
	"math/big"

	"kotskhin.example/sdk/go/attribute"
)

// Rows answer an ask, numbered from 0 in the order of their attribute sets.
type Rows struct{ h *handle[C.kit_rows] }

// Row is a row as data: its attributes, how many points its total is of and how many conflicts it leaves out, and its total. What its
// shape has not is nil. Totals and counts may be wider than 64 bits.
type Row struct {
	Attributes        []attribute.KeyValue
	Points, Conflicts uint64
	// Total is that of a sum or of a histogram.
	Total *big.Int
	// Newest is of a gauge, and nil where it has conflicts alone.
	Newest *Newest
	// Values are of a histogram.
	Values *Values
}

// Newest is the newest point of a gauge.
type Newest struct {
	Time  uint64
	Value int64
}

// Values are those of a histogram: how many, in which buckets, and the least and the greatest where there are any. A bucket has those up to
// the bound of its number and above the one before, the last those above all.
type Values struct {
	Count   *big.Int
	Buckets []*big.Int
	Range   *Range
}

// Range is the least and the greatest of values.
type Range struct{ Least, Greatest int64 }

// Close gives the rows up now.
func (r Rows) Close() error { return r.h.close() }

// Len tells how many rows there are.
func (r Rows) Len() (int, error) {
	rows := r.h.rlock()
	defer r.h.runlock()
	var count C.size_t
	err := check(C.kit_rows_len(rows, &count))
	return int(count), err
}

// Attributes tells the set that a row is of, pair by pair in the order of keys.
func (r Rows) Attributes(row int) ([]attribute.KeyValue, error) {
	if row < 0 {
		return nil, ErrRange
	}
	rows := r.h.rlock()
	defer r.h.runlock()
	h := newHandle[C.kit_attributes]()
	defer h.close()
	if err := check(C.kit_rows_attributes(rows, size(row), &h.raw)); err != nil {
		return nil, err
	}
	return Attributes{h}.Pairs()
}

// Table is a line for each row below a header.
func (r Rows) Table() (string, error) {
	rows := r.h.rlock()
	defer r.h.runlock()
	table := newHandle[C.kit_text]()
	return takeText(table, check(C.kit_rows_table(rows, &table.raw)))
}

func (r Rows) read(row int) (read C.kit_row, err error) {
	if row < 0 {
		return read, ErrRange
	}
	rows := r.h.rlock()
	defer r.h.runlock()
	err = check(C.kit_rows_read(rows, size(row), &read))
	return read, err
}

// Counts tells how many points the total of a row is of, and how many conflicts it leaves out.
func (r Rows) Counts(row int) (points, conflicts uint64, err error) {
	read, err := r.read(row)
	return uint64(read.points), uint64(read.conflicts), err
}

// At is a row as data.
func (r Rows) At(row int) (Row, error) {
	read, err := r.read(row)
	if err != nil {
		return Row{}, err
	}
	data := Row{Points: uint64(read.points), Conflicts: uint64(read.conflicts)}
	switch {
	case read.shape == C.KIT_SHAPE_GAUGE && bool(read.has_value):
		data.Newest = &Newest{uint64(read.time), int64(read.value)}
	case read.shape != C.KIT_SHAPE_GAUGE:
		data.Total = wide(int64(read.sum_high), uint64(read.sum_low))
	}
	if read.shape == C.KIT_SHAPE_HISTOGRAM {
		if data.Values, err = r.values(row, &read); err != nil {
			return Row{}, err
		}
	}
	data.Attributes, err = r.Attributes(row)
	return data, err
}

func (r Rows) values(row int, read *C.kit_row) (*Values, error) {
	values := &Values{Count: count(read.count_high, read.count_low)}
	if read.has_range {
		values.Range = &Range{int64(read.least), int64(read.greatest)}
	}
	// (a histogram has a bucket at least)
	room := make([]C.kit_count, int(read.buckets))
	var length C.size_t
	rows := r.h.rlock()
	defer r.h.runlock()
	err := check(C.kit_rows_buckets(rows, size(row), &room[0], C.size_t(len(room)), &length))
	for _, bucket := range room {
		values.Buckets = append(values.Buckets, count(bucket.high, bucket.low))
	}
	return values, err
}

// wide is high times 2^64, and low.
func wide(high int64, low uint64) *big.Int {
	whole := big.NewInt(high)
	return whole.Lsh(whole, 64).Or(whole, new(big.Int).SetUint64(low))
}

func count(high, low C.uint64_t) *big.Int {
	whole := new(big.Int).SetUint64(uint64(high))
	return whole.Lsh(whole, 64).Or(whole, new(big.Int).SetUint64(uint64(low)))
}

// All are the rows as data.
func (r Rows) All() ([]Row, error) {
	count, err := r.Len()
	if err != nil {
		return nil, err
	}
	all := make([]Row, count)
	for row := range all {
		if all[row], err = r.At(row); err != nil {
			return nil, err
		}
	}
	return all, nil
}

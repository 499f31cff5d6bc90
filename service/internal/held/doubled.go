package held

import (
	"fmt"
	"strings"

	kotskhin "kotskhin.example/sdk/go"
)

// Doubled are incarnations that two archives adopted: each has two tombstones, and counts twice in what is shown.
type Doubled struct {
	Count int
	// First is the set of the tombstones of one of them.
	First string
}

// A census counts tombstones, and looks closer where their number moved.
type census struct {
	tombstones uint64
	found      Doubled
	tell       func(found Doubled)
}

// Doubled is what the last look found.
func (h *Held) Doubled() Doubled {
	h.looking.Lock()
	defer h.looking.Unlock()
	return h.census.found
}

// TellDoubled has a function called with what a look found, where that is more than before; at once, where there was something before.
func (h *Held) TellDoubled(call func(found Doubled)) {
	h.looking.Lock()
	defer h.looking.Unlock()
	h.census.tell = call
	if h.census.found.Count > 0 {
		call(h.census.found)
	}
}

// count looks for doubled tombstones in a copy that has these streams, where some came since the last one.
func (c *census) count(gateway kotskhin.Gateway, streams []kotskhin.Stream) error {
	if !hasScope(streams, ArchiveScope) {
		return nil
	}
	count, err := tombstonesIn(gateway)
	if err != nil || count == c.tombstones {
		return err
	}
	found, err := doubledIn(gateway)
	if err != nil {
		return err
	}
	isMore := found.Count > c.found.Count
	c.tombstones, c.found = count, found
	if isMore && c.tell != nil {
		c.tell(found)
	}
	return nil
}

// namesIn has a function called with each row of tombstones, and with how many it is of: a row for each set, or one for all.
func namesIn(gateway kotskhin.Gateway, isOne bool, call func(rows kotskhin.Rows, row int, points uint64) error) error {
	ask, err := kotskhin.AskGauge(ArchiveScope, "adopted", "ns")
	if err != nil {
		return err
	}
	defer ask.Close()
	if isOne {
		if err := ask.Keep(); err != nil {
			return err
		}
	}
	rows, err := gateway.Rows(ask)
	if err != nil {
		return err
	}
	defer rows.Close()
	count, err := rows.Len()
	if err != nil {
		return err
	}
	for row := 0; row < count; row++ {
		points, conflicts, err := rows.Counts(row)
		if err != nil {
			return err
		}
		if err := call(rows, row, points+conflicts); err != nil {
			return err
		}
	}
	return nil
}

// tombstonesIn tells how many tombstones there are.
func tombstonesIn(gateway kotskhin.Gateway) (total uint64, err error) {
	err = namesIn(gateway, true, func(_ kotskhin.Rows, _ int, points uint64) error {
		total += points
		return nil
	})
	return total, err
}

// doubledIn are the sets that two archives or more have a tombstone of.
func doubledIn(gateway kotskhin.Gateway) (found Doubled, err error) {
	err = namesIn(gateway, false, func(rows kotskhin.Rows, row int, points uint64) (err error) {
		if points < 2 {
			return nil
		}
		found.Count++
		if found.Count == 1 {
			found.First, err = setOf(rows, row)
		}
		return err
	})
	return found, err
}

func setOf(rows kotskhin.Rows, row int) (string, error) {
	pairs, err := rows.Attributes(row)
	var words []string
	for _, pair := range pairs {
		words = append(words, fmt.Sprintf("%s=%s", pair.Key, pair.Value.Emit()))
	}
	return strings.Join(words, ", "), err
}

package kotskhin

// #include "kotskhin.h"
import "C"

import (
	"errors"

	"kotskhin.example/sdk/go/attribute"
)

// ErrInvalidValue says that a pair has no value: it is a zero attribute.KeyValue.
var ErrInvalidValue = errors.New("kotskhin: an attribute without a value")

// Attributes are a set of attributes. Make it once, and record with it often, from any goroutine.
type Attributes struct{ h *handle[C.kit_attributes] }

// NewAttributes makes the set of pairs: of a key that is given twice the later value stays.
func NewAttributes(pairs ...attribute.KeyValue) (Attributes, error) {
	list, err := pairsOf(pairs)
	if err != nil {
		return Attributes{}, err
	}
	defer list.close()
	h := newHandle[C.kit_attributes]()
	var place C.uint64_t
	return Attributes{h}, checkAt(C.kit_attributes_make(&h.raw, &list.raw, &place), &place)
}

func pairsOf(pairs []attribute.KeyValue) (*handle[C.kit_pairs], error) {
	list := newHandle[C.kit_pairs]()
	for _, pair := range pairs {
		if err := add(&list.raw, string(pair.Key), pair.Value); err != nil {
			list.close()
			return nil, err
		}
	}
	return list, nil
}

func add(list *C.kit_pairs, key string, value attribute.Value) error {
	k, kLen := text(key)
	switch value.Type() {
	case attribute.STRING:
		v, vLen := text(value.AsString())
		return check(C.kit_pairs_add_text(list, k, kLen, v, vLen))
	case attribute.INT64:
		return check(C.kit_pairs_add_whole(list, k, kLen, C.int64_t(value.AsInt64())))
	case attribute.BOOL:
		return check(C.kit_pairs_add_truth(list, k, kLen, C.bool(value.AsBool())))
	default:
		return ErrInvalidValue
	}
}

func keysOf(keys []string) (*handle[C.kit_keys], error) {
	list := newHandle[C.kit_keys]()
	for _, key := range keys {
		k, kLen := text(key)
		if err := check(C.kit_keys_add(&list.raw, k, kLen)); err != nil {
			list.close()
			return nil, err
		}
	}
	return list, nil
}

// Close gives the set up now.
func (a Attributes) Close() error { return a.h.close() }

// Len tells how many pairs the set has.
func (a Attributes) Len() (int, error) {
	set := a.h.rlock()
	defer a.h.runlock()
	var count C.size_t
	err := check(C.kit_attributes_len(set, &count))
	return int(count), err
}

// Pairs tells the pairs, in the order of their keys.
func (a Attributes) Pairs() ([]attribute.KeyValue, error) {
	set := a.h.rlock()
	defer a.h.runlock()
	var count C.size_t
	if err := check(C.kit_attributes_len(set, &count)); err != nil {
		return nil, err
	}
	var pairs []attribute.KeyValue
	for number := C.size_t(0); number < count; number++ {
		pair, err := pairIn(set, number)
		if err != nil {
			return pairs, err
		}
		pairs = append(pairs, pair)
	}
	return pairs, nil
}

func pairIn(set *C.kit_attributes, number C.size_t) (attribute.KeyValue, error) {
	key, err := copyOut(func(room *C.uint8_t, size C.size_t, length *C.size_t) C.int32_t {
		return C.kit_attributes_key(set, number, room, size, length)
	})
	if err != nil {
		return attribute.KeyValue{}, err
	}
	var kind C.uint8_t
	var whole C.int64_t
	if err := check(C.kit_attributes_value(set, number, &kind, &whole)); err != nil {
		return attribute.KeyValue{}, err
	}
	switch kind {
	case 1:
		return attribute.Int64(string(key), int64(whole)), nil
	case 2:
		return attribute.Bool(string(key), whole != 0), nil
	}
	value, err := copyOut(func(room *C.uint8_t, size C.size_t, length *C.size_t) C.int32_t {
		return C.kit_attributes_text(set, number, room, size, length)
	})
	return attribute.String(string(key), string(value)), err
}

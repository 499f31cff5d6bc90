// Package attribute has the pairs that measurements are told apart by, under the names of OpenTelemetry. Values are texts, whole numbers
// of 64 bits and truths.
package attribute

import (
	"encoding/binary"
	"strconv"
)

// Type is what a value is.
type Type uint8

// Types of values. The zero Value is INVALID, and a recording with it is refused.
const (
	INVALID Type = iota
	BOOL
	INT64
	STRING
)

// Key is the key of a pair.
type Key string

// Value is the value of a pair. Values are equal where type and content are.
type Value struct {
	kind  Type
	whole int64
	text  string
}

// KeyValue is a pair.
type KeyValue struct {
	Key   Key
	Value Value
}

// StringValue is a text, which is to be UTF-8.
func StringValue(value string) Value { return Value{kind: STRING, text: value} }

// Int64Value is a whole number.
func Int64Value(value int64) Value { return Value{kind: INT64, whole: value} }

// IntValue is a whole number.
func IntValue(value int) Value { return Int64Value(int64(value)) }

// BoolValue is a truth.
func BoolValue(value bool) Value {
	if value {
		return Value{kind: BOOL, whole: 1}
	}
	return Value{kind: BOOL}
}

// String is the pair of a key and a text.
func String(key, value string) KeyValue { return KeyValue{Key(key), StringValue(value)} }

// Int64 is the pair of a key and a whole number.
func Int64(key string, value int64) KeyValue { return KeyValue{Key(key), Int64Value(value)} }

// Int is the pair of a key and a whole number.
func Int(key string, value int) KeyValue { return KeyValue{Key(key), IntValue(value)} }

// Bool is the pair of a key and a truth.
func Bool(key string, value bool) KeyValue { return KeyValue{Key(key), BoolValue(value)} }

// String is the pair of the key and a text.
func (k Key) String(value string) KeyValue { return String(string(k), value) }

// Int64 is the pair of the key and a whole number.
func (k Key) Int64(value int64) KeyValue { return Int64(string(k), value) }

// Int is the pair of the key and a whole number.
func (k Key) Int(value int) KeyValue { return Int(string(k), value) }

// Bool is the pair of the key and a truth.
func (k Key) Bool(value bool) KeyValue { return Bool(string(k), value) }

// Type tells what the value is.
func (v Value) Type() Type { return v.kind }

// AsString is the text that the value is, or none.
func (v Value) AsString() string { return v.text }

// AsInt64 is the whole number that the value is, or 0.
func (v Value) AsInt64() int64 {
	if v.kind != INT64 {
		return 0
	}
	return v.whole
}

// AsBool is the truth that the value is, or false.
func (v Value) AsBool() bool { return v.kind == BOOL && v.whole != 0 }

// Emit is the value as a text, to be read by people.
func (v Value) Emit() string {
	switch v.kind {
	case BOOL:
		return strconv.FormatBool(v.whole != 0)
	case INT64:
		return strconv.FormatInt(v.whole, 10)
	default:
		return v.text
	}
}

// AppendForm appends a form of pairs that is equal for equal lists of pairs alone.
func AppendForm(to []byte, pairs []KeyValue) []byte {
	for i := range pairs {
		pair := &pairs[i]
		to = appendText(to, string(pair.Key))
		to = append(to, byte(pair.Value.kind))
		if pair.Value.kind == STRING {
			to = appendText(to, pair.Value.text)
		} else {
			to = append(to, 0, 0, 0, 0, 0, 0, 0, 0)
			binary.LittleEndian.PutUint64(to[len(to)-8:], uint64(pair.Value.whole))
		}
	}
	return to
}

func appendText(to []byte, text string) []byte {
	to = append(to, 0, 0, 0, 0, 0, 0, 0, 0)
	binary.LittleEndian.PutUint64(to[len(to)-8:], uint64(len(text)))
	return append(to, text...)
}

// Set is pairs that are made once and recorded with often.
type Set struct {
	pairs []KeyValue
	form  string
}

// NewSet is the set of pairs: of a key that is given twice the later value stays.
func NewSet(pairs ...KeyValue) Set {
	own := append([]KeyValue(nil), pairs...)
	return Set{own, string(AppendForm(nil, own))}
}

// Form is that of the pairs by AppendForm.
func (s Set) Form() string { return s.form }

// Pairs are those that the set was made of, in their order. They are not to be changed.
func (s Set) Pairs() []KeyValue { return s.pairs }

// Package otlp reads what servers answer to OpenTelemetry's exporters.
//
// The service reads fields, too, of requests. Its reader is its own, since this module gives no reader of Protocol Buffers to others.
package otlp

import "errors"

// Wire types of Protocol Buffers.
const (
	wireNumber = 0
	wireEight  = 1
	wireBytes  = 2
	wireFour   = 5
)

// ErrMalformed says that bytes are no answer.
var ErrMalformed = errors.New("bytes begin no field that can stand there")

// A field of a message: its number, its type, how many bytes it has, and those of its content.
type field struct {
	number, wire, size int
	content            []byte
}

// readNumber reads a number of 1 to 10 bytes.
func readNumber(from []byte) (value uint64, size int) {
	for shift := uint(0); size < len(from) && size < 10; shift += 7 {
		next := from[size]
		size++
		value |= uint64(next&127) << shift
		if next < 128 {
			return value, size
		}
	}
	return 0, 0
}

// readField is the field that bytes begin with.
func readField(from []byte) (field, error) {
	tag, size := readNumber(from)
	if size == 0 || tag>>3 == 0 || tag>>3 > 1<<29-1 {
		return field{}, ErrMalformed
	}
	made, begin, length := field{number: int(tag >> 3), wire: int(tag & 7)}, size, uint64(0)
	switch made.wire {
	case wireNumber:
		_, size := readNumber(from[begin:])
		if size == 0 {
			return field{}, ErrMalformed
		}
		length = uint64(size)
	case wireEight:
		length = 8
	case wireFour:
		length = 4
	case wireBytes:
		told, size := readNumber(from[begin:])
		if size == 0 {
			return field{}, ErrMalformed
		}
		begin, length = begin+size, told
	default:
		return field{}, ErrMalformed
	}
	if length > uint64(len(from)-begin) {
		return field{}, ErrMalformed
	}
	end := begin + int(length)
	made.size, made.content = end, from[begin:end]
	return made, nil
}

// forEach calls a function with each field of a message, in their order.
func forEach(message []byte, call func(f field) error) error {
	for len(message) > 0 {
		f, err := readField(message)
		if err == nil {
			err = call(f)
		}
		if err != nil {
			return err
		}
		message = message[f.size:]
	}
	return nil
}

// forEachMessage calls a function with the content of each field of a number that has bytes.
func forEachMessage(message []byte, number int, call func(content []byte) error) error {
	return forEach(message, func(f field) error {
		if f.number != number || f.wire != wireBytes {
			return nil
		}
		return call(f.content)
	})
}

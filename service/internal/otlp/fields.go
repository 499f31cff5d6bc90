package otlp

import "errors"

// Wire types of Protocol Buffers.
const (
	wireNumber = 0
	wireEight  = 1
	wireBytes  = 2
	wireFour   = 5
)

// ErrMalformed says that bytes are no request.
var ErrMalformed = errors.New("bytes begin no field that can stand there")

// A field of a message: its number, its type, all its bytes, and those of its content.
type field struct {
	number, wire   int
	whole, content []byte
}

// readNumber reads a number of 1 to 10 bytes.
func readNumber(from []byte) (value uint64, size int) {
	for shift := uint(0); size < len(from) && size < 10; shift += 7 {
		next := from[size]
		size++
		value |= uint64(next&127) << shift
		if next < 128 {
			return value, size
		}
	}
	return 0, 0
}

// readField is the field that bytes begin with.
func readField(from []byte) (field, error) {
	tag, size := readNumber(from)
	if size == 0 || tag>>3 == 0 || tag>>3 > 1<<29-1 {
		return field{}, ErrMalformed
	}
	made, begin, length := field{number: int(tag >> 3), wire: int(tag & 7)}, size, uint64(0)
	switch made.wire {
	case wireNumber:
		_, size := readNumber(from[begin:])
		if size == 0 {
			return field{}, ErrMalformed
		}
		length = uint64(size)
	case wireEight:
		length = 8
	case wireFour:
		length = 4
	case wireBytes:
		told, size := readNumber(from[begin:])
		if size == 0 {
			return field{}, ErrMalformed
		}
		begin, length = begin+size, told
	default:
		return field{}, ErrMalformed
	}
	if length > uint64(len(from)-begin) {
		return field{}, ErrMalformed
	}
	end := begin + int(length)
	made.whole, made.content = from[:end:end], from[begin:end:end]
	return made, nil
}

// forEach calls a function with each field of a message, in their order.
func forEach(message []byte, call func(f field) error) error {
	for len(message) > 0 {
		f, err := readField(message)
		if err == nil {
			err = call(f)
		}
		if err != nil {
			return err
		}
		message = message[len(f.whole):]
	}
	return nil
}

// forEachMessage calls a function with the content of each field of a number that has bytes.
func forEachMessage(message []byte, number int, call func(content []byte) error) error {
	return forEach(message, func(f field) error {
		if f.number != number || f.wire != wireBytes {
			return nil
		}
		return call(f.content)
	})
}

func appendNumber(to []byte, value uint64) []byte {
	for ; value >= 128; value >>= 7 {
		to = append(to, byte(value)|128)
	}
	return append(to, byte(value))
}

// appendBytes adds a field that has bytes.
func appendBytes(to []byte, number int, content []byte) []byte {
	to = appendNumber(to, uint64(number)<<3|wireBytes)
	to = appendNumber(to, uint64(len(content)))
	return append(to, content...)
}

// appendWhole adds a field that has a number.
func appendWhole(to []byte, number int, value uint64) []byte {
	return appendNumber(appendNumber(to, uint64(number)<<3|wireNumber), value)
}

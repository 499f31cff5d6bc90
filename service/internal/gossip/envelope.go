package gossip

// What a message is, by its first bytes. The kit reads messages; these say what its calls do not tell, of bytes that it has read.
type envelope struct {
	kind byte
	from uint64
	to   uint64
	// Of a delta and of an Ack.
	number uint64
}

// Kinds of messages.
const (
	kindAll   = 0
	kindDelta = 1
	kindAck   = 2
)

const messageHead = "KTSM\x02"

// envelopeOf reads the front of a message.
func envelopeOf(bytes []byte) (e envelope, isRead bool) {
	if len(bytes) < len(messageHead) || string(bytes[:len(messageHead)]) != messageHead {
		return e, false
	}
	rest := bytes[len(messageHead):]
	var isFrom, isTo, isNumber bool
	e.from, rest, isFrom = numberOf(rest)
	e.to, rest, isTo = numberOf(rest)
	if !isFrom || !isTo || len(rest) == 0 || rest[0] > kindAck {
		return e, false
	}
	e.kind = rest[0]
	if e.kind == kindAll {
		return e, true
	}
	e.number, _, isNumber = numberOf(rest[1:])
	return e, isNumber
}

// numberOf reads a number: groups of seven bits, the lowest first.
func numberOf(from []byte) (value uint64, rest []byte, isRead bool) {
	for at, next := range from {
		if at == 10 {
			break
		}
		value |= uint64(next&127) << (7 * uint(at))
		if next < 128 {
			return value, from[at+1:], true
		}
	}
	return 0, nil, false
}

// IsAck tells whether a message that the kit has read is an Ack.
func IsAck(message []byte) bool {
	e, isRead := envelopeOf(message)
	return isRead && e.kind == kindAck
}

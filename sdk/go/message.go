package kotskhin

// #include "kotskhin.h"
import "C"

// Message is what one gateway tells another. It may be lost, come late or come twice.
type Message struct{ h *handle[C.kit_message] }

// Close gives the message up now.
func (m Message) Close() error { return m.h.close() }

// Encode gives the bytes of the message, for a gateway in another process.
func (m Message) Encode() ([]byte, error) {
	message := m.h.rlock()
	defer m.h.runlock()
	h := newHandle[C.kit_bytes]()
	return takeBytes(h, check(C.kit_message_encode(message, &h.raw)))
}

// DecodeMessage gives the message of bytes that Encode made.
func DecodeMessage(bytes []byte) (Message, error) {
	at, length := bytesOf(bytes)
	h := newHandle[C.kit_message]()
	var place C.uint64_t
	return newMessage(h, checkAt(C.kit_message_decode(&h.raw, at, length, &place), &place))
}

// Envelope tells from which id to which the message goes, and how many points it carries: what a receiver compares with the peer that
// brought it.
func (m Message) Envelope() (from, to uint32, points int, err error) {
	message := m.h.rlock()
	defer m.h.runlock()
	var sender, receiver C.uint32_t
	var carried C.size_t
	err = check(C.kit_message_read(message, &sender, &receiver, &carried))
	return uint32(sender), uint32(receiver), int(carried), err
}

// Send makes a message to the gateway of an id: all that it did not acknowledge. It may be lost, come late or come twice.
func (g Gateway) Send(to uint32) (Message, error) {
	h := newHandle[C.kit_message]()
	err := check(C.kit_gateway_send(g.h.rlock(), C.uint32_t(to), &h.raw))
	g.h.runlock()
	return newMessage(h, err)
}

// Hand takes in a message, forgets what a tombstone then names, and gives the answer to its sender where there is one.
func (g Gateway) Hand(m Message) (answer Message, isAnswered bool, err error) {
	h := newHandle[C.kit_message]()
	var is C.bool
	err = check(C.kit_gateway_hand(g.h.lock(), m.h.rlock(), &h.raw, &is))
	g.h.unlock()
	m.h.runlock()
	if err == nil {
		g.weigh()
	}
	return Message{h}, bool(is), err
}

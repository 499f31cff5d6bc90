package server

import (
	"encoding/binary"
	"encoding/json"
	"errors"
	"fmt"
	"net/http"
	"strconv"
	"strings"
	"time"

	kotskhin "kotskhin.example/sdk/go"
	"kotskhin.example/service/internal/figures"
	"kotskhin.example/service/internal/gossip"
	"kotskhin.example/service/internal/held"
	"kotskhin.example/service/internal/otlp"
	"kotskhin.example/service/internal/store"
	"kotskhin.example/service/internal/tokens"
)

// ExportsType is that of a body with several exports: of each the number of its bytes, as a varint, and the bytes.
const ExportsType = "application/vnd.kotskhin.exports"

// exports takes the kit's own bytes of one export, or of several.
func (s *Server) exports(w http.ResponseWriter, request *http.Request, grant tokens.Grant) error {
	var told taken
	if err := s.read(request, s.Limits.Body, func(body []byte) (err error) {
		parts, isAlone := [][]byte{body}, true
		if kind, _, _ := strings.Cut(request.Header.Get("Content-Type"), ";"); kind == ExportsType {
			if parts, err = partsOf(body); err != nil {
				return err
			}
			isAlone = len(parts) == 1
		}
		exports, err := decodeAll(parts)
		defer closeAll(exports)
		if err != nil {
			return err
		}
		var kept []byte
		if isAlone {
			kept = parts[0]
		}
		told, err = s.take(request, grant, body, exports, kept)
		return err
	}); err != nil {
		return err
	}
	if told.Late > 0 {
		// (exporters read this one: not each language brings a reader of JSON)
		w.Header().Set("Kotskhin-Late", strconv.Itoa(told.Late))
	}
	return asJSON(w, told)
}

func decodeAll(parts [][]byte) (exports []kotskhin.Export, err error) {
	for _, part := range parts {
		export, err := kotskhin.DecodeExport(part)
		if err != nil {
			return exports, err
		}
		exports = append(exports, export)
	}
	return exports, nil
}

func closeAll(exports []kotskhin.Export) {
	for _, export := range exports {
		export.Close()
	}
}

func partsOf(body []byte) (parts [][]byte, err error) {
	for len(body) > 0 {
		length, size := binary.Uvarint(body)
		if size <= 0 || length > uint64(len(body)-size) {
			return nil, refusal{http.StatusBadRequest, "malformed", "the exports of the body are cut"}
		}
		end := size + int(length)
		parts, body = append(parts, body[size:end]), body[end:]
	}
	if len(parts) == 0 {
		return nil, refusal{http.StatusBadRequest, "malformed", "the body has no export"}
	}
	return parts, nil
}

// taken is what a request brought, and how much of it was late.
type taken struct {
	Exports int `json:"exports"`
	Points  int `json:"points"`
	Late    int `json:"late,omitempty"`
	// How many points what is late had.
	latePoints int
}

func takenOf(brought *held.Brought, late []kotskhin.ExportHead) taken {
	t := taken{Exports: brought.Exports, Points: brought.Points, Late: len(late)}
	for _, head := range late {
		t.latePoints += head.Points
	}
	// (exports of one incarnation that come together have points in common)
	if t.latePoints > t.Points {
		t.latePoints = t.Points
	}
	return t
}

// take takes the exports of a body, all or none, once the sender may speak for them, there is room, and they are kept on disk. Kept are the
// bytes of an export that comes alone, where they are at hand.
func (s *Server) take(request *http.Request, grant tokens.Grant, body []byte, exports []kotskhin.Export, kept []byte) (taken, error) {
	brought, err := held.Bring(exports, kept)
	if brought != nil {
		defer brought.Close()
	}
	if err != nil {
		return taken{}, err
	}
	if err := checkServices(grant, brought.Of); err != nil {
		return taken{}, err
	}
	if err := checkReserved(brought, body); err != nil {
		return taken{}, err
	}
	if err := s.Held.Admit(brought); err != nil {
		return taken{}, err
	}
	late, err := s.keep(brought)
	if err != nil {
		return taken{}, err
	}
	t := takenOf(brought, late)
	s.tellLate(request, late)
	labels := figures.Labels("path", request.URL.Path)
	s.Figures.Add(figures.Exports, labels, float64(t.Exports-t.Late))
	s.Figures.Add(figures.Points, labels, float64(t.Points-t.latePoints))
	return t, nil
}

// keep keeps what is brought on disk, where there is one, and takes it.
func (s *Server) keep(brought *held.Brought) (late []kotskhin.ExportHead, err error) {
	if s.Store == nil {
		return s.Held.Take(brought)
	}
	bytes, err := brought.Bytes()
	if err != nil {
		return nil, err
	}
	err = s.Store.Keep(bytes, func() (err error) {
		late, err = s.Held.Take(brought)
		return err
	})
	return late, err
}

// tellLate counts what is late, and logs once in a while whose it is.
func (s *Server) tellLate(request *http.Request, late []kotskhin.ExportHead) {
	if len(late) == 0 {
		return
	}
	s.Figures.Add(figures.Late, figures.Labels("path", request.URL.Path), float64(len(late)))
	count, may := s.late.Add(len(late), time.Now())
	if head := late[0]; may {
		s.Log.Warn("exports came once their incarnation was adopted: a writer that lives should begin anew under a later start",
			"exports", count, "service", head.Service, "instance", head.Instance, "start", head.Start, "from", request.RemoteAddr)
	}
}

// otlp takes a request of the OpenTelemetry protocol.
func (s *Server) otlp(w http.ResponseWriter, request *http.Request, grant tokens.Grant) error {
	kind, _, _ := strings.Cut(request.Header.Get("Content-Type"), ";")
	if !strings.EqualFold(strings.TrimSpace(kind), otlp.Type) {
		return refusal{http.StatusUnsupportedMediaType, "type", fmt.Sprintf("requests come as %s, and not as %q", otlp.Type, kind)}
	}
	var refused int
	var why string
	var told taken
	var left map[otlp.Left]int
	if err := s.read(request, s.Limits.Body, func(body []byte) error {
		read, err := otlp.Of(body)
		if err != nil {
			return err
		}
		defer read.Close()
		refused, why, left = read.Refused, read.Why(), read.Left
		if len(read.Exports) > 0 {
			told, err = s.take(request, grant, body, read.Exports, nil)
		}
		return err
	}); err != nil {
		return err
	}
	s.left.add(left, grant, request.RemoteAddr)
	if told.Late > 0 {
		refused += told.latePoints
		why = strings.TrimPrefix(fmt.Sprintf("%s; %d points: LATE: their incarnation was adopted before", why, told.latePoints), "; ")
	}
	w.Header().Set("Content-Type", otlp.Type)
	w.WriteHeader(http.StatusOK)
	w.Write(otlp.Taken(refused, why))
	return nil
}

// messages takes in what another gateway tells, and answers with its Ack.
func (s *Server) messages(w http.ResponseWriter, request *http.Request, grant tokens.Grant) error {
	var answer []byte
	if err := s.read(request, s.Limits.Message, func(body []byte) error {
		message, err := kotskhin.DecodeMessage(body)
		if err != nil {
			return err
		}
		defer message.Close()
		from, err := s.mayHand(message, body, grant)
		if err != nil {
			return err
		}
		if answer, err = s.hand(message, body); err != nil {
			return err
		}
		s.Gossip.NoteHeard(from)
		return nil
	}); err != nil {
		return err
	}
	w.Header().Set("Content-Type", gossip.MessageType)
	if answer == nil {
		w.WriteHeader(http.StatusNoContent)
		return nil
	}
	w.Write(answer)
	return nil
}

// hand takes in a message. It is kept like what senders bring, so that after a kill no less is shown than before. Where the disk is full it
// is taken in all the same: its sender has it, too.
func (s *Server) hand(message kotskhin.Message, body []byte) (answer []byte, err error) {
	hand := func() (err error) {
		answer, err = s.Held.Hand(message)
		return err
	}
	if _, _, points, told := message.Envelope(); told == nil && points == 0 {
		err = hand()
		return answer, err
	}
	err = s.Store.Keep(body, hand)
	if errors.Is(err, store.ErrDisk) {
		s.Log.Debug("a message is not kept", "why", err)
		err = hand()
	}
	return answer, err
}

// mayHand tells whether a message is one that another gateway sends here, and speaks of services that it may speak for.
func (s *Server) mayHand(message kotskhin.Message, body []byte, grant tokens.Grant) (from uint32, err error) {
	from, to, _, err := message.Envelope()
	switch {
	case err != nil:
		return from, err
	case to != s.Held.ID():
		return from, refusal{http.StatusMisdirectedRequest, "misdirected", "the message goes to another gateway"}
	case from == s.Held.ID():
		return from, refusal{http.StatusBadRequest, "own", "the message is said to be of this gateway"}
	case gossip.IsAck(body):
		// (an Ack that anybody may send could say that a peer has what it has not)
		return from, refusal{http.StatusBadRequest, "ack", "an Ack answers a message, and is not sent by itself"}
	}
	of, err := message.Incarnations()
	if err != nil {
		return from, err
	}
	if err := checkServices(grant, of); err != nil {
		return from, err
	}
	return from, checkNamed(grant, body)
}

func asJSON(w http.ResponseWriter, value any) error {
	encoded, err := json.Marshal(value)
	if err != nil {
		return err
	}
	w.Header().Set("Content-Type", "application/json")
	w.Write(append(encoded, '\n'))
	return nil
}

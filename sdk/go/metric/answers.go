package metric

import (
	"encoding/binary"
	"errors"
	"fmt"
	"io"
	"net/http"
	"strconv"
	"strings"
	"unicode"
	"unicode/utf8"

	"kotskhin.example/sdk/go/internal/otlp"
)

// NotTakenError says that an export was answered by 2xx, and that some of it was not taken all the same: as by a gateway that took its
// writer for dead. Sent again it would be answered likewise, and so would the next one.
type NotTakenError struct {
	// How many points were not taken; or exports, where what was posted is the kit's own bytes. The other one is 0.
	Points, Exports uint64
	// What the answer says of it, where it says anything.
	Message string
}

// Error says how much was not taken, and what the answer says of it.
func (e *NotTakenError) Error() string {
	if e.Exports > 0 {
		return fmt.Sprintf("kotskhin: %d exports came late, and were not taken", e.Exports)
	}
	text := fmt.Sprintf("kotskhin: %d points were not taken", e.Points)
	if e.Message != "" {
		text += ": " + e.Message
	}
	return text
}

func isNotTaken(err error) bool {
	var why *NotTakenError
	return errors.As(err, &why)
}

// The most that is looked at of an answer, and the most that is read of it so that its connection can be used again.
const (
	mostLookedAt = 64 << 10
	mostRead     = 1 << 20
)

// checkAnswer tells why an answer says that an export was not taken. Other servers answer by 2xx what they like, so of that one fails an
// export only where it surely says that something was not taken: by its body to OTLP, and by a header to the kit's own bytes.
func checkAnswer(answer *http.Response) error {
	defer answer.Body.Close()
	body, err := io.ReadAll(io.LimitReader(answer.Body, mostLookedAt+1))
	if err == nil {
		_, err = io.Copy(io.Discard, io.LimitReader(answer.Body, mostRead))
	}
	if err != nil {
		return err
	}
	if answer.StatusCode/100 != 2 {
		return refusalOf(answer, body)
	}
	if why := pointsNotTaken(body); why != nil {
		return why
	}
	if late := lateOf(answer.Header); late > 0 {
		return &NotTakenError{Exports: late}
	}
	return nil
}

// The most bytes of a refusal that its error has.
const mostTold = 1 << 10

// refusalOf is the status of a refusal, and what its body says: the first line, or the message of OTLP's status.
func refusalOf(answer *http.Response, body []byte) error {
	says := string(body)
	if strings.HasPrefix(answer.Header.Get("Content-Type"), OTLPType) {
		says = messageOf(body)
	}
	if says = firstLine(says); says != "" {
		return fmt.Errorf("the answer is %s: %s", answer.Status, says)
	}
	return fmt.Errorf("the answer is %s", answer.Status)
}

// firstLine is the first line of a text that says anything, in at most so many bytes and without what is not to be printed.
func firstLine(says string) string {
	says = strings.TrimSpace(says)
	if end := strings.IndexAny(says, "\r\n"); end >= 0 {
		says = says[:end]
	}
	if len(says) > mostTold {
		says = says[:mostTold]
	}
	return strings.TrimSpace(strings.Map(func(letter rune) rune {
		if letter == utf8.RuneError || !unicode.IsPrint(letter) {
			return -1
		}
		return letter
	}, says))
}

// messageOf is the message of a google.rpc.Status, as OTLP says why a request is refused; none where it is no such thing.
func messageOf(status []byte) (message string) {
	for len(status) > 0 {
		key, size := binary.Uvarint(status)
		if size <= 0 {
			return ""
		}
		status = status[size:]
		value, size := binary.Uvarint(status)
		if size <= 0 {
			return ""
		}
		status = status[size:]
		switch isBytes := key&7 == 2; {
		case isBytes && value <= uint64(len(status)):
			if key == 2<<3|2 {
				message = string(status[:value])
			}
			status = status[value:]
		case isBytes || key&7 != 0:
			return ""
		}
	}
	return message
}

// pointsNotTaken reads an answer to OTLP. One that rejects no point and has a message is a warning alone, as the protocol has it.
func pointsNotTaken(body []byte) *NotTakenError {
	if len(body) > mostLookedAt {
		return nil
	}
	points, why, err := otlp.Rejected(body)
	if err != nil || points <= 0 {
		return nil
	}
	return &NotTakenError{Points: uint64(points), Message: why}
}

// lateOf reads how many exports a gateway says were late: a whole number of at most 19 digits, and anything else says nothing.
func lateOf(header http.Header) uint64 {
	digits := header.Get("Kotskhin-Late")
	late, err := strconv.ParseUint(digits, 10, 64)
	if err != nil || len(digits) > 19 {
		return 0
	}
	return late
}

package server

import (
	"bytes"
	"compress/gzip"
	"errors"
	"fmt"
	"io"
	"net"
	"net/http"
	"strings"
	"sync/atomic"

	"kotskhin.example/service/internal/figures"
)

// A budget is how many bytes of bodies may be held at a time.
type budget struct{ left int64 }

func (b *budget) take(bytes int64) bool {
	if atomic.AddInt64(&b.left, -bytes) < 0 {
		atomic.AddInt64(&b.left, bytes)
		return false
	}
	return true
}

func (b *budget) give(bytes int64) { atomic.AddInt64(&b.left, bytes) }

// read reads the body of a request, and has a worker call a function with it. No answer is written meanwhile.
func (s *Server) read(request *http.Request, most int64, call func(body []byte) error) error {
	return s.body(request, most, func(body []byte) error {
		return s.withWorker(request, func() error { return call(body) })
	})
}

// A body is read by pieces, and each is asked of the budget once there is something to put into it: a sender that is slow has little of it.
const pieceBytes = 64 << 10

// body reads the body of a request, and calls a function with it. Its room is free again once that returns.
func (s *Server) body(request *http.Request, most int64, call func(body []byte) error) error {
	if request.ContentLength > most {
		return tooLarge(most)
	}
	from := io.Reader(request.Body)
	switch coding := strings.ToLower(request.Header.Get("Content-Encoding")); coding {
	case "", "identity":
	case "gzip":
		unpacked, err := gzip.NewReader(from)
		if err != nil {
			return readRefusal(err)
		}
		from = unpacked
	default:
		return refusal{http.StatusUnsupportedMediaType, "coding", fmt.Sprintf("bodies come as they are or by gzip, and not by %s", coding)}
	}
	taken := int64(0)
	defer func() { s.inFlight.give(taken) }()
	var read bytes.Buffer
	for {
		if !s.inFlight.take(pieceBytes) {
			return refusal{http.StatusTooManyRequests, "in_flight", "as many bytes of bodies are under way as may be"}
		}
		taken += pieceBytes
		count, err := io.CopyN(&read, from, pieceBytes)
		if int64(read.Len()) > most {
			return tooLarge(most)
		}
		if errors.Is(err, io.EOF) && count < pieceBytes {
			break
		}
		if err != nil {
			return readRefusal(err)
		}
	}
	s.Figures.Add(figures.Bytes, figures.Labels("path", request.URL.Path), float64(read.Len()))
	return call(read.Bytes())
}

func tooLarge(most int64) error {
	return refusal{http.StatusRequestEntityTooLarge, "too_large", fmt.Sprintf("a body may have %d bytes", most)}
}

func readRefusal(err error) error {
	var slow net.Error
	if errors.As(err, &slow) && slow.Timeout() {
		return refusal{http.StatusRequestTimeout, "slow", "the body did not come in time"}
	}
	return refusal{http.StatusBadRequest, "cut", fmt.Sprintf("the body can't be read: %v", err)}
}

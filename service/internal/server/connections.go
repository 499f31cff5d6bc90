package server

import (
	"net"
	"sync"
	"sync/atomic"
	"time"
)

// Connections is a listener that bounds how many connections are open. One more is answered 503 and closed; of TLS it is closed.
type Connections struct {
	net.Listener
	Most  int64
	IsTLS bool
	open  int64
}

const tooMany = "HTTP/1.1 503 Service Unavailable\r\nContent-Type: text/plain; charset=utf-8\r\nRetry-After: 1\r\nConnection: close\r\n" +
	"Content-Length: 38\r\n\r\nas many connections are open as may be"

// Open tells how many are open.
func (c *Connections) Open() int64 { return atomic.LoadInt64(&c.open) }

// Accept waits for a connection for which there is room.
func (c *Connections) Accept() (net.Conn, error) {
	for {
		conn, err := c.Listener.Accept()
		if err != nil {
			return nil, err
		}
		if atomic.AddInt64(&c.open, 1) <= c.Most {
			return &connection{Conn: conn, of: c}, nil
		}
		atomic.AddInt64(&c.open, -1)
		// (an answer of this length goes into the socket's own room, and does not wait for the other side)
		conn.SetDeadline(time.Now().Add(time.Second))
		if !c.IsTLS {
			conn.Write([]byte(tooMany))
		}
		conn.Close()
	}
}

type connection struct {
	net.Conn
	of   *Connections
	once sync.Once
}

// Close gives the room free, once.
func (c *connection) Close() error {
	c.once.Do(func() { atomic.AddInt64(&c.of.open, -1) })
	return c.Conn.Close()
}

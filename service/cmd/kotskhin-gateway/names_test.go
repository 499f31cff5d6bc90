package main

import (
	"context"
	"encoding/binary"
	"net"
	"strings"
	"sync"
	"testing"
)

// names answer what addresses a name has, as a server of DNS: for as long as a test goes on this process asks it alone.
type names struct {
	lock sync.Mutex
	of   map[string][]string
}

func answering(t *testing.T) *names {
	t.Helper()
	made := &names{of: map[string][]string{}}
	socket := must[net.PacketConn](t)(net.ListenPacket("udp", "127.0.0.1:0"))
	usual := net.DefaultResolver
	net.DefaultResolver = &net.Resolver{PreferGo: true, Dial: func(ctx context.Context, _, _ string) (net.Conn, error) {
		return (&net.Dialer{}).DialContext(ctx, "udp", socket.LocalAddr().String())
	}}
	t.Cleanup(func() { net.DefaultResolver = usual; socket.Close() })
	go func() {
		asked := make([]byte, 1024)
		for {
			count, from, err := socket.ReadFrom(asked)
			if err != nil {
				return
			}
			socket.WriteTo(made.answer(asked[:count]), from)
		}
	}()
	return made
}

func (n *names) set(name string, addresses ...string) {
	n.lock.Lock()
	defer n.lock.Unlock()
	n.of[name+"."] = addresses
}

// answer is a head, the question and a record of each address, whose name is that of the question.
func (n *names) answer(asked []byte) []byte {
	const head, typeA, noSuchName = 12, 1, 3
	name, at := "", head
	for asked[at] != 0 {
		name += string(asked[at+1:at+1+int(asked[at])]) + "."
		at += 1 + int(asked[at])
	}
	question := asked[head : at+5]
	n.lock.Lock()
	addresses, is := n.of[strings.ToLower(name)]
	n.lock.Unlock()
	if binary.BigEndian.Uint16(question[len(question)-4:]) != typeA {
		addresses = nil
	}
	made := append([]byte{asked[0], asked[1], 0x81, 0x80, 0, 1, 0, byte(len(addresses)), 0, 0, 0, 0}, question...)
	if !is {
		made[3] |= noSuchName
	}
	for _, address := range addresses {
		made = append(made, 0xc0, head, 0, typeA, 0, 1, 0, 0, 0, 0, 0, 4)
		made = append(made, net.ParseIP(address).To4()...)
	}
	return made
}

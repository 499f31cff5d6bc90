package gossip

import (
	"bytes"
	"context"
	"encoding/json"
	"fmt"
	"io"
	"net/http"
	"strconv"
)

// MessageType is that of messages, as docs/use/FILES.md has it.
const MessageType = "application/vnd.kotskhin.message"

// IDHeader has the id of the gateway that answers.
const IDHeader = "Kotskhin-Gateway"

// Who is what a gateway says of itself.
type Who struct {
	ID uint32 `json:"id"`
	// Process is drawn at each start, so that a gateway knows itself among its peers.
	Process string `json:"process"`
	// Folder is the name of that in which it keeps its state, by which it is known again at another address.
	Folder string `json:"folder,omitempty"`
	// Archives are the services whose ended incarnations it adopts.
	Archives []string `json:"archives,omitempty"`
	Peers    []State  `json:"peers"`
}

// Paths of what gateways ask each other.
const (
	PeersPath    = "/v1/peers"
	MessagesPath = "/v1/messages"
	GonePath     = "/v1/gone"
)

// An answer of a peer is no longer than this, and the name of a folder than that: it is kept.
const (
	mostAnswer = 1 << 20
	mostName   = 64
)

func (g *Gossip) who(ctx context.Context, p *peer) (who Who, err error) {
	status, body, _, err := g.ask(ctx, p, http.MethodGet, PeersPath, nil)
	if err != nil {
		return who, err
	}
	if status != http.StatusOK {
		return who, fmt.Errorf("%s answers %d: %s", PeersPath, status, short(body))
	}
	if err := json.Unmarshal(body, &who); err != nil || who.Process == "" || len(who.Folder) > mostName {
		return who, fmt.Errorf("%s does not say who it is: %s", p.url, short(body))
	}
	return who, nil
}

// post sends a message, and gives the answer's bytes.
func (g *Gossip) post(ctx context.Context, p *peer, message []byte) ([]byte, error) {
	status, body, head, err := g.ask(ctx, p, http.MethodPost, MessagesPath, message)
	switch {
	case err != nil:
		return nil, err
	case status == http.StatusOK, status == http.StatusNoContent:
		return body, nil
	case status == http.StatusMisdirectedRequest && head.Get(IDHeader) != strconv.FormatUint(uint64(p.read().id), 10):
		return nil, errMoved
	}
	return nil, fmt.Errorf("%s answers %d: %s", MessagesPath, status, short(body))
}

func (g *Gossip) ask(ctx context.Context, p *peer, method, path string, body []byte) (int, []byte, http.Header, error) {
	request, err := http.NewRequestWithContext(ctx, method, p.url+path, bytes.NewReader(body))
	if err != nil {
		return 0, nil, nil, err
	}
	if body != nil {
		request.Header.Set("Content-Type", MessageType)
	}
	if g.Token != nil {
		if token := g.Token(); token != "" {
			request.Header.Set("Authorization", "Bearer "+token)
		}
	}
	response, err := p.client.Do(request)
	if err != nil {
		return 0, nil, nil, err
	}
	defer response.Body.Close()
	answer, err := io.ReadAll(io.LimitReader(response.Body, mostAnswer))
	return response.StatusCode, answer, response.Header, err
}

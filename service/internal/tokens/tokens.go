// Package tokens says who may do what: it reads a file of tokens, each with a right and the services that its bearer may speak for.
package tokens

import (
	"bufio"
	"crypto/sha256"
	"errors"
	"fmt"
	"io"
	"net/http"
	"os"
	"strings"
)

// Right is what a token allows.
type Right string

// Rights: to bring exports, to exchange messages as another gateway does, to read.
const (
	Write Right = "write"
	Peer  Right = "peer"
	Read  Right = "read"
)

// Shortest is the least length of a token: a shorter one could be found by trying.
const Shortest = 16

var (
	// ErrNoToken says that a request has no token that is known.
	ErrNoToken = errors.New("a token is wanted that is known here")
	// ErrNoRight says that the token of a request does not allow it.
	ErrNoRight = errors.New("the token does not allow this")
)

// Grant is what a request may do: for which services it may speak.
type Grant struct {
	isAll    bool
	services map[string]bool
}

// Everything is the grant of a gateway without tokens.
var Everything = Grant{isAll: true}

// IsAll tells whether the bearer may speak for every service.
func (g Grant) IsAll() bool { return g.isAll }

// Allows tells whether the bearer may speak for a service.
func (g Grant) Allows(service string) bool { return g.isAll || g.services[service] }

// Tokens are those of a file. A nil one allows everything.
type Tokens struct {
	// (the digests of tokens: looking one up then tells nothing of another by the time it takes)
	grants map[[sha256.Size]byte]map[Right]Grant
	peer   string
	// Reading wants a token where the file has one for it.
	isReadGuarded bool
}

// Load reads the file of a name.
func Load(name string) (*Tokens, error) {
	file, err := os.Open(name)
	if err != nil {
		return nil, err
	}
	defer file.Close()
	tokens, err := Parse(file)
	if err != nil {
		return nil, fmt.Errorf("%s: %w", name, err)
	}
	return tokens, nil
}

// Parse reads lines of a token, a right, and of write and peer the services, or * for all. Empty lines, and those that begin with #, are
// passed over.
func Parse(file io.Reader) (*Tokens, error) {
	tokens := &Tokens{grants: map[[sha256.Size]byte]map[Right]Grant{}}
	lines := bufio.NewScanner(file)
	for number := 1; lines.Scan(); number++ {
		words := strings.Fields(lines.Text())
		if len(words) == 0 || strings.HasPrefix(words[0], "#") {
			continue
		}
		if err := tokens.add(words); err != nil {
			return nil, fmt.Errorf("line %d: %w", number, err)
		}
	}
	return tokens, lines.Err()
}

func (t *Tokens) add(words []string) error {
	token := words[0]
	if len(token) < Shortest {
		return fmt.Errorf("a token has at least %d letters", Shortest)
	}
	if len(words) < 2 {
		return errors.New("a token wants a right: write, peer or read")
	}
	right, grant := Right(words[1]), Grant{services: map[string]bool{}}
	for _, service := range words[2:] {
		grant.isAll = grant.isAll || service == "*"
		grant.services[service] = true
	}
	switch {
	case right != Write && right != Peer && right != Read:
		return fmt.Errorf("%q is no right: write, peer or read", words[1])
	case right == Read && len(words) > 2:
		return errors.New("who may read reads all services")
	case right != Read && len(words) == 2:
		return errors.New("it wants services, or * for all")
	}
	digest := sha256.Sum256([]byte(token))
	if _, ok := t.grants[digest][right]; ok {
		return errors.New("this token has this right in an earlier line")
	}
	if t.grants[digest] == nil {
		t.grants[digest] = map[Right]Grant{}
	}
	t.grants[digest][right] = grant
	if right == Peer && t.peer == "" {
		t.peer = token
	}
	t.isReadGuarded = t.isReadGuarded || right == Read
	return nil
}

// PeerToken is the token by which this gateway speaks to others: that of the first line with the right of a peer.
func (t *Tokens) PeerToken() string {
	if t == nil {
		return ""
	}
	return t.peer
}

// Of is what the bearer of a request's token may do by a right.
func (t *Tokens) Of(request *http.Request, right Right) (Grant, error) {
	if t == nil || right == Read && !t.isReadGuarded {
		return Everything, nil
	}
	scheme, token, _ := strings.Cut(request.Header.Get("Authorization"), " ")
	if !strings.EqualFold(scheme, "Bearer") {
		return Grant{}, ErrNoToken
	}
	rights, ok := t.grants[sha256.Sum256([]byte(token))]
	if !ok {
		return Grant{}, ErrNoToken
	}
	grant, ok := rights[right]
	if !ok {
		return Grant{}, ErrNoRight
	}
	return grant, nil
}

package tokens

import (
	"errors"
	"net/http"
	"strings"
	"testing"
)

const file = `# who may do what
shop-0123456789abcdef write shop bank

peer-0123456789abcdef peer *
both-0123456789abcdef write *
both-0123456789abcdef read
`

func asked(header string) *http.Request {
	request, _ := http.NewRequest(http.MethodPost, "http://localhost/", nil)
	if header != "" {
		request.Header.Set("Authorization", header)
	}
	return request
}

func TestRights(t *testing.T) {
	tokens, err := Parse(strings.NewReader(file))
	if err != nil {
		t.Fatal(err)
	}
	if tokens.PeerToken() != "peer-0123456789abcdef" {
		t.Fatal(tokens.PeerToken())
	}
	for _, test := range []struct {
		header  string
		right   Right
		service string
		err     error
		allows  bool
	}{
		{"Bearer shop-0123456789abcdef", Write, "shop", nil, true},
		{"bearer shop-0123456789abcdef", Write, "bank", nil, true},
		{"Bearer shop-0123456789abcdef", Write, "till", nil, false},
		{"Bearer shop-0123456789abcdef", Write, "*", nil, false},
		{"Bearer shop-0123456789abcdef", Read, "", ErrNoRight, false},
		{"Bearer shop-0123456789abcdef", Peer, "", ErrNoRight, false},
		{"Bearer shop-0123456789abcdee", Write, "", ErrNoToken, false},
		{"Basic shop-0123456789abcdef", Write, "", ErrNoToken, false},
		{"", Write, "", ErrNoToken, false},
		{"", Read, "", ErrNoToken, false},
		{"Bearer peer-0123456789abcdef", Peer, "till", nil, true},
		{"Bearer both-0123456789abcdef", Write, "till", nil, true},
		{"Bearer both-0123456789abcdef", Read, "", nil, false},
	} {
		grant, err := tokens.Of(asked(test.header), test.right)
		if !errors.Is(err, test.err) || test.err == nil && err != nil || grant.Allows(test.service) != test.allows {
			t.Errorf("%+v: %v, %v", test, err, grant.Allows(test.service))
		}
	}
}

func TestWithoutALineForReadingAllMayRead(t *testing.T) {
	tokens, err := Parse(strings.NewReader("shop-0123456789abcdef write shop\n"))
	if err != nil {
		t.Fatal(err)
	}
	if grant, err := tokens.Of(asked(""), Read); err != nil || !grant.Allows("any") {
		t.Fatal(err)
	}
	if _, err := tokens.Of(asked(""), Write); !errors.Is(err, ErrNoToken) {
		t.Fatal(err)
	}
	if grant, err := (*Tokens)(nil).Of(asked(""), Write); err != nil || !grant.Allows("any") || (*Tokens)(nil).PeerToken() != "" {
		t.Fatal(err)
	}
}

func TestBadLines(t *testing.T) {
	for _, line := range []string{
		"short write shop", "shop-0123456789abcdef", "shop-0123456789abcdef own shop", "shop-0123456789abcdef write",
		"shop-0123456789abcdef read shop", "peer-0123456789abcdef peer",
		"shop-0123456789abcdef write a\nshop-0123456789abcdef write b",
	} {
		if _, err := Parse(strings.NewReader(line)); err == nil || !strings.HasPrefix(err.Error(), "line ") {
			t.Errorf("%q: %v", line, err)
		}
	}
}

// Package otlp reads what OpenTelemetry's exporters post, by the kit, and answers as the protocol has it.
//
// The kit reads a request whole or refuses it. Where it refuses something that has no counterpart, the request is parted here: the kit is
// asked of each resource, metric and point by itself, and what it refuses is left out, counted and told.
package otlp

import (
	"errors"
	"fmt"
	"sort"
	"strings"

	kotskhin "kotskhin.example/sdk/go"
)

// Most scopes of a resource that are left out one after the other, since each time the others are read again.
const mostScopes = 8

// Read is what a request brings, and what of it is refused.
type Read struct {
	Exports []kotskhin.Export
	// Refused is how many points were left out, and Why says the reasons. Left are the same, by service and reason.
	Refused int
	Left    map[Left]int
	whys    map[kotskhin.Code]int
	// The service of the resource that is read.
	service string
}

// Left are points that were left out: of which service, as far as the resource says it, and why, in one word.
type Left struct{ Service, Reason string }

// Why says for which reasons points were refused.
func (r *Read) Why() string {
	var codes []kotskhin.Code
	for code := range r.whys {
		codes = append(codes, code)
	}
	sort.Slice(codes, func(i, j int) bool { return codes[i] < codes[j] })
	var said []string
	for _, code := range codes {
		why := strings.TrimPrefix(kotskhin.Refused{Code: code}.Error(), "kotskhin: ")
		why, _, _ = strings.Cut(why, " (")
		said = append(said, fmt.Sprintf("%d points: %s", r.whys[code], why))
	}
	return strings.Join(said, "; ")
}

// Close gives the exports up.
func (r *Read) Close() {
	for _, export := range r.Exports {
		export.Close()
	}
	r.Exports = nil
}

func (r *Read) refuse(points int, code kotskhin.Code) {
	r.Refused += points
	if r.whys == nil {
		r.whys, r.Left = map[kotskhin.Code]int{}, map[Left]int{}
	}
	r.whys[code] += points
	r.Left[Left{r.service, strings.ToLower(strings.TrimPrefix(code.Error(), "kotskhin: "))}] += points
}

// Of reads a request. An error says that nothing of it is read.
func Of(request []byte) (*Read, error) {
	exports, err := kotskhin.ExportsOfOTLP(request)
	if err == nil {
		return &Read{Exports: exports}, nil
	}
	if _, is := noCounterpart(err); !is {
		return nil, err
	}
	made := &Read{}
	if err := forEachMessage(request, requestResources, made.addResource); err != nil {
		made.Close()
		return nil, err
	}
	return made, nil
}

// noCounterpart is the code by which the kit refuses what a request says, and not its bytes.
func noCounterpart(err error) (kotskhin.Code, bool) {
	var why kotskhin.Refused
	if !errors.As(err, &why) {
		return 0, false
	}
	isLimit := why.Code == kotskhin.ErrTooLongText || why.Code == kotskhin.ErrTooManyAttributes
	return why.Code, isLimit || why.Code >= kotskhin.ErrNoService && why.Code <= kotskhin.ErrNoExport
}

// probe is the code by which the kit refuses a request; 0 where it does not.
func probe(request []byte) (kotskhin.Code, error) {
	exports, err := kotskhin.ExportsOfOTLP(request)
	(&Read{Exports: exports}).Close()
	if code, is := noCounterpart(err); is {
		return code, nil
	}
	return 0, err
}

// addResource reads a resource without what is refused of it.
func (r *Read) addResource(resource []byte) error {
	var head []byte
	if err := forEach(resource, func(f field) error {
		if f.number != resourceScopes {
			head = append(head, f.whole...)
		}
		return nil
	}); err != nil {
		return err
	}
	r.service = serviceOf(head)
	if code, err := probe(appendBytes(nil, requestResources, head)); code != 0 || err != nil {
		return r.refuseAll(resource, code, err)
	}
	var scopes [][]byte
	if err := forEachMessage(resource, resourceScopes, func(scope []byte) error {
		kept, err := r.scope(scope)
		if kept != nil {
			scopes = append(scopes, kept)
		}
		return err
	}); err != nil {
		return err
	}
	return r.addScopes(head, scopes)
}

func (r *Read) refuseAll(resource []byte, code kotskhin.Code, err error) error {
	if err != nil {
		return err
	}
	points, err := pointsUnder(resource)
	r.refuse(points, code)
	return err
}

// addScopes reads what is left of a resource. A scope that comes in two versions is left out, but for the first; where the points make no
// export together, all are refused.
func (r *Read) addScopes(head []byte, scopes [][]byte) error {
	for turn := 0; ; turn++ {
		left := append([]byte{}, head...)
		for _, scope := range scopes {
			left = appendBytes(left, resourceScopes, scope)
		}
		exports, err := kotskhin.ExportsOfOTLP(appendBytes(nil, requestResources, left))
		if err == nil {
			r.Exports = append(r.Exports, exports...)
			return nil
		}
		code, is := noCounterpart(err)
		if !is {
			return err
		}
		if code != kotskhin.ErrScopeTwice || turn == mostScopes {
			return r.refuseAll(left, code, nil)
		}
		var why kotskhin.Refused
		errors.As(err, &why)
		points, err := pointsIn(scopes[why.Place])
		if err != nil {
			return err
		}
		r.refuse(points, code)
		scopes = append(append([][]byte{}, scopes[:why.Place]...), scopes[why.Place+1:]...)
	}
}

package kotskhin

import (
	"fmt"
	"strings"
)

// Code is why a call is refused, as kotskhin.h has it. Each is an error, for errors.Is.
type Code int32

// Error tells the name of the code.
func (c Code) Error() string {
	if code, ok := codes[c]; ok {
		return "kotskhin: " + code.name
	}
	return fmt.Sprintf("kotskhin: code %d", int32(c))
}

// Refused is why a call is refused: a code, and the places that it tells, in the order of its words. A refused call changed nothing.
type Refused struct {
	Code          Code
	Place, Second uint64
}

// Error tells the name of the code, what it says, and the places that it tells.
func (r Refused) Error() string {
	code, ok := codes[r.Code]
	if !ok {
		return r.Code.Error()
	}
	said := r.Code.Error() + ": " + code.says
	if len(code.places) == 0 {
		return said
	}
	var places []string
	for i, place := range []uint64{r.Place, r.Second}[:len(code.places)] {
		places = append(places, fmt.Sprintf("%s %d", code.places[i], place))
	}
	return said + " (" + strings.Join(places, ", ") + ")"
}

// Is tells whether the refusal has a code, as in errors.Is(err, kotskhin.ErrClosed).
func (r Refused) Is(target error) bool {
	code, ok := target.(Code)
	return ok && code == r.Code
}

package server

import (
	"errors"
	"net/http"

	kotskhin "kotskhin.example/sdk/go"
	"kotskhin.example/service/internal/held"
	"kotskhin.example/service/internal/otlp"
	"kotskhin.example/service/internal/store"
	"kotskhin.example/service/internal/tokens"
)

// refusalOf is how an error is answered.
func refusalOf(err error) refusal {
	var own refusal
	if errors.As(err, &own) {
		return own
	}
	var ofKit kotskhin.Refused
	switch {
	case errors.Is(err, tokens.ErrNoToken):
		return refusal{http.StatusUnauthorized, "unauthorized", err.Error()}
	case errors.Is(err, tokens.ErrNoRight):
		return refusal{http.StatusForbidden, "forbidden", err.Error()}
	case errors.Is(err, held.ErrFull):
		return refusal{http.StatusServiceUnavailable, "full", err.Error()}
	case errors.Is(err, store.ErrDisk):
		return refusal{http.StatusServiceUnavailable, "disk", err.Error()}
	case errors.Is(err, kotskhin.ErrNoMemory):
		return refusal{http.StatusServiceUnavailable, "memory", err.Error()}
	case errors.Is(err, kotskhin.ErrReservedPoint):
		return reservedRefusal()
	case errors.Is(err, kotskhin.ErrTooLong):
		return refusal{http.StatusRequestEntityTooLarge, "too_large", err.Error()}
	case isOf(err, otlp.ErrMalformed), errors.As(err, &ofKit):
		return refusal{http.StatusBadRequest, "malformed", err.Error()}
	}
	return refusal{http.StatusInternalServerError, "fault", err.Error()}
}

// checkServices refuses who speaks for a service that is not his.
func checkServices(grant tokens.Grant, of []kotskhin.Incarnation) error {
	for _, i := range of {
		if !grant.Allows(i.Service) {
			return refusal{http.StatusForbidden, "service", "the token does not speak for the service " + i.Service}
		}
	}
	return nil
}

package server

import (
	"bytes"
	"net/http"

	kotskhin "kotskhin.example/sdk/go"
	"kotskhin.example/service/internal/held"
	"kotskhin.example/service/internal/tokens"
)

// mayName tells whether bytes may have a point of the scope of tombstones: a text stands in them as it is, so most need no second look.
func mayName(body []byte) bool { return bytes.Contains(body, []byte(held.ArchiveScope)) }

// checkReserved refuses who brings points in the scope of tombstones: a worker could hide others.
func checkReserved(brought *held.Brought, body []byte) error {
	if !mayName(body) {
		return nil
	}
	has, err := brought.HasScope(held.ArchiveScope)
	if err != nil {
		return err
	}
	if has {
		return reservedRefusal()
	}
	return nil
}

// reservedRefusal is how such points are refused: of a request of OTLP the kit itself finds them.
func reservedRefusal() refusal {
	why := "no sender may bring points of the scope " + held.ArchiveScope + ": a gateway itself says what was adopted"
	return refusal{http.StatusForbidden, "reserved", why}
}

// checkNamed refuses who says that an incarnation was adopted of a service that is not his.
func checkNamed(grant tokens.Grant, body []byte) error {
	if grant.IsAll() || !mayName(body) {
		return nil
	}
	carried, err := kotskhin.OpenGateway(0)
	if err != nil {
		return err
	}
	defer carried.Close()
	if _, err := carried.MergeBytes(body); err != nil {
		return err
	}
	ask, err := kotskhin.AskGauge(held.ArchiveScope, "adopted", "ns")
	if err != nil {
		return err
	}
	defer ask.Close()
	rows, err := carried.Rows(ask)
	if err != nil {
		return err
	}
	defer rows.Close()
	count, err := rows.Len()
	if err != nil {
		return err
	}
	for row := 0; row < count; row++ {
		if err := checkRow(grant, rows, row); err != nil {
			return err
		}
	}
	return nil
}

// checkRow refuses a tombstone of a service that is not the sender's.
func checkRow(grant tokens.Grant, rows kotskhin.Rows, row int) error {
	pairs, err := rows.Attributes(row)
	if err != nil {
		return err
	}
	for _, pair := range pairs {
		if pair.Key == "service" && !grant.Allows(pair.Value.AsString()) {
			return refusal{http.StatusForbidden, "service", "the token does not speak for the service " + pair.Value.AsString()}
		}
	}
	return nil
}

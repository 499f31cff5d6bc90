package kotskhin

// #include "kotskhin.h"
import "C"

// The types under which pages of a gateway are answered.
const (
	OpenMetricsType = "application/openmetrics-text; version=1.0.0; charset=utf-8"
	PrometheusType  = "text/plain; version=0.0.4; charset=utf-8"
)

// PageOption asks for what a page does not show by itself.
type PageOption struct{ tombstones bool }

// WithTombstones shows the tombstones of archives too: a row for each incarnation that one adopted.
func WithTombstones() PageOption { return PageOption{tombstones: true} }

// OpenMetrics is the page of what the gateway holds, in OpenMetrics 1.0.
func (g Gateway) OpenMetrics(options ...PageOption) (string, error) {
	return g.openMetrics(false, "", options)
}

// OpenMetricsOf is the same page of one service alone.
func (g Gateway) OpenMetricsOf(service string, options ...PageOption) (string, error) {
	return g.openMetrics(true, service, options)
}

// Prometheus is the page of what the gateway holds, in Prometheus' text format 0.0.4.
func (g Gateway) Prometheus(options ...PageOption) (string, error) {
	return g.prometheus(false, "", options)
}

// PrometheusOf is the same page of one service alone.
func (g Gateway) PrometheusOf(service string, options ...PageOption) (string, error) {
	return g.prometheus(true, service, options)
}

func (g Gateway) openMetrics(only bool, service string, options []PageOption) (string, error) {
	at, length := text(service)
	page := newHandle[C.kit_text]()
	err := check(C.kit_gateway_openmetrics(g.h.rlock(), C.bool(only), at, length, withTombstones(options), &page.raw))
	g.h.runlock()
	return takeText(page, err)
}

func (g Gateway) prometheus(only bool, service string, options []PageOption) (string, error) {
	at, length := text(service)
	page := newHandle[C.kit_text]()
	err := check(C.kit_gateway_prometheus(g.h.rlock(), C.bool(only), at, length, withTombstones(options), &page.raw))
	g.h.runlock()
	return takeText(page, err)
}

func withTombstones(options []PageOption) C.bool {
	for _, it := range options {
		if it.tombstones {
			return true
		}
	}
	return false
}

// takeText copies the text that a call made, and gives it up.
func takeText(h *handle[C.kit_text], err error) (string, error) {
	defer h.close()
	if err != nil {
		return "", err
	}
	text, err := copyOut(func(room *C.uint8_t, size C.size_t, length *C.size_t) C.int32_t {
		return C.kit_text_copy(&h.raw, room, size, length)
	})
	return string(text), err
}

package metric

import (
	"errors"
	"fmt"
	"log"
	"reflect"
	"runtime"
	"strings"
	"sync/atomic"
)

// ErrReentered says that a hook or an exporter flushes or shuts down the provider that waits for it. A goroutine of its own may do so.
var ErrReentered = errors.New("kotskhin: a hook or an exporter may not flush or shut down the provider that waits for it")

// What the names of this package's functions begin with, wherever the module is fetched from.
var here = reflect.TypeOf(MeterProvider{}).PkgPath() + "."

// Functions that isWithin is asked for.
const (
	userCalls = "(*MeterProvider).call"
	tellHook  = "(*MeterProvider).tellHook"
	logged    = "logLine"
)

// guard makes a call of the user's code: a panic is an error.
func guard(call func() error) (err error) {
	defer func() {
		if why := recover(); why != nil {
			err = fmt.Errorf("it panicked: %v", why)
		}
	}()
	return call()
}

// call makes a call of a hook or an exporter of the provider.
func (p *MeterProvider) call(function func() error) error {
	atomic.AddInt32(&p.calls, 1)
	defer atomic.AddInt32(&p.calls, -1)
	return guard(function)
}

// isReentered tells whether a hook or an exporter of the provider calls it, on its goroutine.
func (p *MeterProvider) isReentered() bool {
	return atomic.LoadInt32(&p.calls) > 0 && isWithin(userCalls)
}

// withoutPrefix is an error's text without the kit's name, for a line that begins with it.
func withoutPrefix(err error) string {
	return strings.Replace(fmt.Sprint(err), "kotskhin: ", "", 1)
}

// logLine logs a line. Where the log's own writer comes here it does nothing: it has the log's lock.
func logLine(format string, arguments ...any) {
	if !isWithin(logged) {
		log.Printf(format, arguments...)
	}
}

// isWithin tells whether the function that asks was called, on its goroutine, by a function of this package. Goroutines have nothing that
// a hook's calls could be known by but their stack.
func isWithin(function string) bool {
	counters := make([]uintptr, 64)
	got := runtime.Callers(3, counters)
	for ; got == len(counters); got = runtime.Callers(3, counters) {
		counters = make([]uintptr, 2*len(counters))
	}
	frames := runtime.CallersFrames(counters[:got])
	for more := got > 0; more; {
		var frame runtime.Frame
		if frame, more = frames.Next(); frame.Function == here+function {
			return true
		}
	}
	return false
}

// caller is the line outside of this package from which a call came.
func caller() string {
	var counters [16]uintptr
	frames := runtime.CallersFrames(counters[:runtime.Callers(2, counters[:])])
	for {
		frame, more := frames.Next()
		if !strings.HasPrefix(frame.Function, here) || strings.HasSuffix(frame.File, "_test.go") || !more {
			return fmt.Sprintf("%s:%d", frame.File, frame.Line)
		}
	}
}

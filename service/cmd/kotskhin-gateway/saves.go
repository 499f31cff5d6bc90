package main

import (
	"bytes"
	"context"
	stdlog "log"
	"runtime/debug"
	"time"

	kotskhin "kotskhin.example/sdk/go"
	"kotskhin.example/service/internal/logs"
)

// Most bytes that are added to a journal before the state is saved, however short ago that was: or those of the state, where it is larger.
const longJournal = 64 << 20

// saveAgainAndAgain saves the state at an interval, where something changed, until the context ends.
func (r *running) saveAgainAndAgain(ctx context.Context) {
	if r.store == nil {
		return
	}
	ticks := time.NewTicker(time.Second)
	defer ticks.Stop()
	saved, last := ^uint64(0), time.Now()
	for {
		select {
		case <-ticks.C:
		case <-ctx.Done():
			return
		}
		isLong := r.store.Journal() > longJournal && r.store.Journal() > int64(r.store.Last().Bytes)
		changes := r.held.Changes()
		if changes == saved || time.Since(last) < r.settings.SaveInterval && !isLong {
			continue
		}
		last = time.Now()
		if err := r.store.Save(r.held.Encode); err != nil {
			r.log.Error("the state was not saved", "why", err)
			continue
		}
		saved = changes
		r.log.Debug("the state was saved", "bytes", r.store.Last().Bytes, "seconds", time.Since(last).Seconds())
	}
}

// version is that of the SDK, which has one number with the service, and the commit that was built where that is known.
func version() string {
	info, ok := debug.ReadBuildInfo()
	if !ok {
		return kotskhin.Version
	}
	for _, setting := range info.Settings {
		if setting.Key == "vcs.revision" && len(setting.Value) >= 12 {
			return kotskhin.Version + " (" + setting.Value[:12] + ")"
		}
	}
	return kotskhin.Version
}

// quiet has what the HTTP server itself says logged as lines: faults of connections, most often.
func quiet(log *logs.Logger) *stdlog.Logger { return stdlog.New(lines{log}, "", 0) }

type lines struct{ log *logs.Logger }

func (l lines) Write(line []byte) (int, error) {
	l.log.Debug("of a connection", "said", string(bytes.TrimSpace(line)))
	return len(line), nil
}

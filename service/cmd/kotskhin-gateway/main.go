// Command kotskhin-gateway is a gateway as a service: it takes exports by HTTP, tells other gateways what they have not, and shows the same
// totals to Prometheus as they do. docs/use/SERVICE.md has its flags and paths.
package main

import (
	"context"
	"errors"
	"fmt"
	"os"
	"os/signal"
	"syscall"

	"kotskhin.example/service/internal/logs"
	"kotskhin.example/service/internal/settings"
)

// How the program ends.
const (
	ended   = 0
	failed  = 1
	refused = 2
)

func main() { os.Exit(run()) }

func run() int {
	s, err := settings.Read(os.Args[1:], os.Getenv, os.Stdout)
	switch {
	case errors.Is(err, settings.ErrHelp):
		return ended
	case err != nil:
		fmt.Fprintln(os.Stderr, "kotskhin-gateway:", err)
		return refused
	case s.IsVersion:
		fmt.Println("kotskhin-gateway", version())
		return ended
	}
	level, err := logs.LevelOf(s.LogLevel)
	if err != nil {
		fmt.Fprintln(os.Stderr, "kotskhin-gateway: --log-level:", err)
		return refused
	}
	log := logs.New(os.Stderr, level, s.LogFormat == "text")
	ctx, stop := signal.NotifyContext(context.Background(), os.Interrupt, syscall.SIGTERM)
	defer stop()
	if err := serve(ctx, s, log); err != nil {
		log.Error("the gateway ends", "why", err)
		return failed
	}
	return ended
}

// Package settings reads what a gateway is told by flags and by its environment.
package settings

import (
	"errors"
	"flag"
	"fmt"
	"io"
	"net"
	"net/url"
	"os"
	"strings"
	"time"
)

// Settings are what a gateway is told.
type Settings struct {
	Listen string
	Peers  []string

	GossipInterval, GossipLongestPause, GossipTimeout, PeerRefresh, Patience time.Duration

	State        string
	SaveInterval time.Duration

	Archive                    []string
	ArchiveAfter, ArchiveEvery time.Duration

	MaxBody, MaxMessage, MaxInFlight      int64
	MaxPoints, MaxStreams, MaxConnections int

	ReadTimeout, WriteTimeout, IdleTimeout, Drain time.Duration

	TokenFile, TLSCert, TLSKey, ClientCA string

	LogLevel, LogFormat string
	IsVersion           bool

	// Whether it adopts earlier than is safe, as Unsafe lets it.
	IsUnsafe bool
}

// Unsafe is the variable by which tests have --archive-after be shorter than is safe: what a peer took that is away may be hidden then.
const Unsafe = "KOTSKHIN_UNSAFE_ARCHIVE_AFTER"

// ErrHelp says that help was asked for, and given.
var ErrHelp = flag.ErrHelp

const usage = `Takes exports of Kotskhin and of OpenTelemetry, tells other gateways, and shows totals to Prometheus

Usage: kotskhin-gateway [FLAG]..

Each flag may be set by the environment, too: --max-body is KOTSKHIN_MAX_BODY. A flag goes first. Lengths of time have a unit, as 500ms, 30s
and 2m; sizes may have one, as 64KiB, 16MiB and 1GiB.

Flags:
`

// peers is a flag that may come often; in the environment there are commas between.
type peers []string

func (p *peers) String() string { return strings.Join(*p, ",") }

func (p *peers) Set(words string) error {
	for _, word := range strings.Split(words, ",") {
		if word = strings.TrimSpace(word); word == "" {
			continue
		}
		if err := isPeer(word); err != nil {
			return err
		}
		*p = append(*p, word)
	}
	return nil
}

func isPeer(word string) error {
	if !strings.Contains(word, "://") {
		host, port, err := net.SplitHostPort(word)
		if err != nil || host == "" || port == "" {
			return fmt.Errorf("%q is neither a URL nor a name with a port", word)
		}
		return nil
	}
	parsed, err := url.Parse(word)
	if err != nil || parsed.Scheme != "http" && parsed.Scheme != "https" || parsed.Host == "" {
		return fmt.Errorf("%q is no URL of http or https", word)
	}
	return nil
}

// services is a flag that may come often, with commas between services.
type services []string

func (s *services) String() string { return strings.Join(*s, ",") }

func (s *services) Set(words string) error {
	for _, word := range strings.Split(words, ",") {
		if word = strings.TrimSpace(word); word != "" && !isAmong(word, *s) {
			*s = append(*s, word)
		}
	}
	return nil
}

func isAmong(word string, words []string) bool {
	for _, known := range words {
		if known == word {
			return true
		}
	}
	return false
}

// size is a number of bytes.
type size int64

var units = []struct {
	name  string
	bytes int64
}{{"GiB", 1 << 30}, {"MiB", 1 << 20}, {"KiB", 1 << 10}, {"", 1}}

func (s *size) String() string {
	for _, unit := range units {
		if int64(*s) >= unit.bytes && int64(*s)%unit.bytes == 0 {
			return fmt.Sprintf("%d%s", int64(*s)/unit.bytes, unit.name)
		}
	}
	return fmt.Sprint(int64(*s))
}

func (s *size) Set(word string) error {
	for _, unit := range units {
		if unit.name != "" && !strings.HasSuffix(word, unit.name) {
			continue
		}
		var count int64
		rest := strings.TrimSuffix(word, unit.name)
		if _, err := fmt.Sscanf(rest, "%d", &count); err != nil || fmt.Sprint(count) != rest || count < 1 || count > 1<<62/unit.bytes {
			break
		}
		*s = size(count * unit.bytes)
		return nil
	}
	return errors.New("it is no size")
}

func flagsOf(s *Settings, out io.Writer) *flag.FlagSet {
	flags := flag.NewFlagSet("kotskhin-gateway", flag.ContinueOnError)
	flags.SetOutput(out)
	flags.Usage = func() {}
	flags.StringVar(&s.Listen, "listen", "127.0.0.1:9464", "`ADDRESS` on which it listens")
	flags.Var((*peers)(&s.Peers), "peer", "another gateway, as often as there are: a `URL`, or a name with a port, which is looked up again "+
		"and again, and of which each address is a peer")
	flags.DurationVar(&s.GossipInterval, "gossip-interval", time.Second, "from one message to a peer to the next")
	flags.DurationVar(&s.GossipLongestPause, "gossip-longest-pause", 30*time.Second, "the most that pauses grow to while a peer is away")
	flags.DurationVar(&s.GossipTimeout, "gossip-timeout", 10*time.Second, "how long a peer may take to answer")
	flags.DurationVar(&s.PeerRefresh, "peer-refresh", 30*time.Second, "from one look-up of peers' names to the next")
	flags.DurationVar(&s.Patience, "ready-patience", 15*time.Second, "how long it waits for peers before it shows what it holds")
	flags.StringVar(&s.State, "state", "", "`FOLDER` in which it keeps what it takes; without one a kill loses what no peer was told")
	flags.DurationVar(&s.SaveInterval, "save-interval", 30*time.Second, "from one saving of the whole state to the next")
	flags.Var((*services)(&s.Archive), "archive", "`SERVICES` of which it adopts what has ended, with commas between; no other gateway of "+
		"those that tell each other may adopt of the same")
	flags.DurationVar(&s.ArchiveAfter, "archive-after", time.Hour, "for how long nothing newer came of what has ended")
	flags.DurationVar(&s.ArchiveEvery, "archive-every", time.Minute, "from one look for what has ended to the next, which is at most "+
		"a quarter of --archive-after")
	s.MaxBody, s.MaxMessage, s.MaxInFlight = 16<<20, 512<<20, 1<<30
	flags.Var((*size)(&s.MaxBody), "max-body", "most `BYTES` of a body, unpacked")
	flags.Var((*size)(&s.MaxMessage), "max-message", "most `BYTES` of a peer's message")
	flags.Var((*size)(&s.MaxInFlight), "max-in-flight", "most `BYTES` of bodies that are read at a time")
	flags.IntVar(&s.MaxPoints, "max-points", 10_000_000, "most `POINTS` that it holds")
	flags.IntVar(&s.MaxStreams, "max-streams", 10_000, "most `STREAMS` that it holds")
	flags.IntVar(&s.MaxConnections, "max-connections", 1024, "most `CONNECTIONS` that are open")
	flags.DurationVar(&s.ReadTimeout, "read-timeout", 30*time.Second, "how long a request may take to come")
	flags.DurationVar(&s.WriteTimeout, "write-timeout", 60*time.Second, "how long a request may take from its head to the end of its answer")
	flags.DurationVar(&s.IdleTimeout, "idle-timeout", 120*time.Second, "how long a connection may be idle")
	flags.DurationVar(&s.Drain, "drain", 0, "how long /readyz refuses before it ends")
	flags.StringVar(&s.TokenFile, "token-file", "", "`FILE` with lines of a token, a right (write, peer or read) and services; it is "+
		"read again once it changes, and on SIGHUP")
	flags.StringVar(&s.TLSCert, "tls-cert", "", "`FILE` with its certificate, also towards peers")
	flags.StringVar(&s.TLSKey, "tls-key", "", "`FILE` with the key of its certificate")
	flags.StringVar(&s.ClientCA, "client-ca", "", "`FILE` with certificates of who may certify senders and peers; others are refused then")
	flags.StringVar(&s.LogLevel, "log-level", "info", "least `LEVEL` that is logged: debug, info, warn or error")
	flags.StringVar(&s.LogFormat, "log-format", "json", "`FORM` of lines: json or text")
	flags.BoolVar(&s.IsVersion, "version", false, "tells the version")
	return flags
}

// Read reads words and an environment. Help goes to out.
func Read(words []string, environment func(name string) string, out io.Writer) (*Settings, error) {
	s := &Settings{IsUnsafe: environment(Unsafe) != ""}
	var ignored strings.Builder
	flags := flagsOf(s, &ignored)
	if err := readEnvironment(flags, environment); err != nil {
		return nil, err
	}
	// (peers and services that are told by flags stand in the place of those of the environment)
	peers, archive := s.Peers, s.Archive
	s.Peers, s.Archive = nil, nil
	if err := flags.Parse(words); errors.Is(err, flag.ErrHelp) {
		io.WriteString(out, usage)
		flags.SetOutput(out)
		flags.PrintDefaults()
		return nil, ErrHelp
	} else if err != nil {
		return nil, err
	}
	if s.Peers == nil {
		s.Peers = peers
	}
	if s.Archive == nil {
		s.Archive = archive
	}
	if flags.NArg() > 0 {
		return nil, fmt.Errorf("there is no word %q: --help lists flags", flags.Arg(0))
	}
	return s, s.check()
}

func readEnvironment(flags *flag.FlagSet, environment func(name string) string) (err error) {
	flags.VisitAll(func(f *flag.Flag) {
		name := "KOTSKHIN_" + strings.ToUpper(strings.ReplaceAll(f.Name, "-", "_"))
		if value := environment(name); value != "" && err == nil && f.Name != "version" {
			if why := f.Value.Set(value); why != nil {
				err = fmt.Errorf("%s is %q: %w", name, value, why)
			}
		}
	})
	return err
}

func (s *Settings) check() error {
	for name, length := range map[string]time.Duration{
		"gossip-interval": s.GossipInterval, "gossip-longest-pause": s.GossipLongestPause, "gossip-timeout": s.GossipTimeout,
		"peer-refresh": s.PeerRefresh, "save-interval": s.SaveInterval, "read-timeout": s.ReadTimeout,
		"archive-after": s.ArchiveAfter, "archive-every": s.ArchiveEvery,
	} {
		if length <= 0 {
			return fmt.Errorf("--%s is above 0", name)
		}
	}
	for name, count := range map[string]int{"max-points": s.MaxPoints, "max-streams": s.MaxStreams, "max-connections": s.MaxConnections} {
		if count < 1 {
			return fmt.Errorf("--%s is above 0", name)
		}
	}
	if err := s.checkArchive(); err != nil {
		return err
	}
	switch {
	case s.LogFormat != "json" && s.LogFormat != "text":
		return errors.New("--log-format is json or text")
	case (s.TLSCert == "") != (s.TLSKey == ""):
		return errors.New("--tls-cert and --tls-key come together")
	case s.ClientCA != "" && s.TLSCert == "":
		return errors.New("--client-ca wants --tls-cert and --tls-key")
	}
	if s.State != "" {
		if info, err := os.Stat(s.State); err == nil && !info.IsDir() {
			return fmt.Errorf("--state: %s is no folder", s.State)
		}
	}
	return nil
}

// checkArchive refuses a time by which what a peer took could be hidden.
func (s *Settings) checkArchive() error {
	least := 2 * (s.GossipLongestPause + s.GossipTimeout)
	isSafe := len(s.Archive) == 0 || len(s.Peers) == 0 || s.ArchiveAfter >= least
	if s.IsUnsafe = s.IsUnsafe && !isSafe; isSafe || s.IsUnsafe {
		return nil
	}
	return fmt.Errorf("--archive-after is %v, and beside peers at least %v, twice --gossip-longest-pause and --gossip-timeout added up: "+
		"that a peer is away may be seen that late, and what it took meanwhile would be hidden", s.ArchiveAfter, least)
}

// Looks is from one look for what has ended to the next. That the process was stopped is seen by looks that did not come, so there are some
// within the time after which something has ended.
func (s *Settings) Looks() time.Duration {
	if least := s.ArchiveAfter/4 + time.Millisecond; s.ArchiveEvery > least {
		return least
	}
	return s.ArchiveEvery
}

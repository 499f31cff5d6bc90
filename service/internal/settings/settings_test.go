package settings

import (
	"errors"
	"strings"
	"testing"
	"time"
)

func read(words string, environment map[string]string) (s *Settings, help string, err error) {
	var out strings.Builder
	s, err = Read(strings.Fields(words), func(name string) string { return environment[name] }, &out)
	return s, out.String(), err
}

func TestFlagsGoBeforeTheEnvironment(t *testing.T) {
	made, _, err := read("--max-body 64KiB --peer http://a:1 --peer b:2", map[string]string{
		"KOTSKHIN_MAX_BODY": "1MiB", "KOTSKHIN_MAX_POINTS": "7", "KOTSKHIN_GOSSIP_INTERVAL": "200ms", "KOTSKHIN_PEER": "http://c:3",
	})
	if err != nil || made.MaxBody != 64<<10 || made.MaxPoints != 7 || made.GossipInterval != 200*time.Millisecond {
		t.Fatal(made, err)
	}
	if strings.Join(made.Peers, " ") != "http://a:1 b:2" {
		t.Fatal(made.Peers)
	}
	made, _, err = read("--archive shop,bank --archive shop", map[string]string{"KOTSKHIN_ARCHIVE": "till", "KOTSKHIN_ARCHIVE_AFTER": "30m"})
	if err != nil || strings.Join(made.Archive, " ") != "shop bank" || made.ArchiveAfter != 30*time.Minute {
		t.Fatal(made, err)
	}
	made, _, err = read("", map[string]string{"KOTSKHIN_ARCHIVE": "till, bank"})
	if err != nil || strings.Join(made.Archive, " ") != "till bank" || made.ArchiveEvery != time.Minute {
		t.Fatal(made, err)
	}
	made, _, err = read("", map[string]string{"KOTSKHIN_PEER": "http://c:3, d:4"})
	if err != nil || strings.Join(made.Peers, " ") != "http://c:3 d:4" || made.MaxBody != 16<<20 {
		t.Fatal(made, err)
	}
}

func TestWhatIsRefused(t *testing.T) {
	for _, words := range []string{
		"--max-body 0", "--max-body 1KB", "--max-body -5", "--max-body 9999999999GiB", "--peer ftp://a", "--peer a", "--peer :1",
		"--loud", "word",
		"--archive-after 0s", "--archive-every -1m",
		"--gossip-interval 0s", "--gossip-interval 5", "--max-points 0", "--log-format xml", "--tls-cert a", "--client-ca a", "--state /dev/null",
	} {
		if made, _, err := read(words, nil); err == nil {
			t.Errorf("%s: %+v", words, made)
		}
	}
	_, _, err := read("", map[string]string{"KOTSKHIN_MAX_BODY": "much"})
	if err == nil || !strings.Contains(err.Error(), "KOTSKHIN_MAX_BODY") {
		t.Error(err)
	}
}

func TestHelp(t *testing.T) {
	_, told, err := read("--help", nil)
	if !errors.Is(err, ErrHelp) || !strings.Contains(told, "-peer URL") || !strings.Contains(told, "(default 16MiB)") {
		t.Fatal(err, told)
	}
}

// What a peer took that is away would be hidden: --archive-after is long enough that this is seen before.
func TestArchiveAfterBesidePeers(t *testing.T) {
	const peer, short = " --peer http://a:1", " --gossip-longest-pause 1s --gossip-timeout 1s"
	for words, isTaken := range map[string]bool{
		"--archive shop --archive-after 79s" + peer: false, "--archive shop --archive-after 2s" + peer: false,
		"--archive shop --archive-after 80s" + peer: true, "--archive shop" + peer: true, "--archive shop --archive-after 2s": true,
		"--archive-after 2s" + peer: true, "--archive shop --archive-after 4s" + short + peer: true,
		"--archive shop --archive-after 3999ms" + short + peer: false, "--archive shop --archive-after 1h --gossip-timeout 30m" + peer: false,
	} {
		_, _, err := read(words, nil)
		if isTaken != (err == nil) || err != nil && !strings.Contains(err.Error(), "at least") {
			t.Errorf("%s: %v", words, err)
		}
	}
	for words, isUnsafe := range map[string]bool{"--archive shop --archive-after 1s" + peer: true, "--archive shop" + peer: false} {
		if made, _, err := read(words, map[string]string{Unsafe: "1"}); err != nil || made.IsUnsafe != isUnsafe {
			t.Error(words, made, err)
		}
	}
}

// However seldom it is told to look, that it was stopped is seen within the time.
func TestLooks(t *testing.T) {
	for words, wanted := range map[string]time.Duration{
		"": time.Minute, "--archive-after 80s": 20*time.Second + time.Millisecond, "--archive-after 80s --archive-every 3s": 3 * time.Second,
		"--archive-after 1ns": time.Millisecond,
	} {
		if made, _, err := read(words, nil); err != nil || made.Looks() != wanted {
			t.Error(words, made, err)
		}
	}
}

package logs

import (
	"bytes"
	"encoding/json"
	"errors"
	"strings"
	"testing"
)

func TestALineIsAnObject(t *testing.T) {
	var out bytes.Buffer
	New(&out, Info, false).Warn("a \"word\"\n", "error", errors.New("no\tplace"), "points", 7)
	var line map[string]any
	if err := json.Unmarshal(out.Bytes(), &line); err != nil {
		t.Fatal(err, out.String())
	}
	if line["level"] != "warn" || line["message"] != "a \"word\"\n" || line["error"] != "no\tplace" || line["points"] != 7.0 {
		t.Fatal(line)
	}
	if strings.Count(out.String(), "\n") != 1 {
		t.Fatal(out.String())
	}
}

func TestWordsAndValues(t *testing.T) {
	var out bytes.Buffer
	New(&out, Debug, true).Debug("two words", "empty", "", "plain", 7)
	if !strings.HasSuffix(out.String(), " level=debug message=\"two words\" empty=\"\" plain=7\n") {
		t.Fatal(out.String())
	}
}

func TestALevelBelowIsNotWritten(t *testing.T) {
	var out bytes.Buffer
	logger := New(&out, Warn, false)
	logger.Info("nothing")
	(*Logger)(nil).Error("nothing")
	if out.Len() != 0 {
		t.Fatal(out.String())
	}
	if level, err := LevelOf("error"); err != nil || level != Error {
		t.Fatal(level, err)
	}
	if _, err := LevelOf("loud"); err == nil {
		t.Fatal("loud is a level")
	}
}

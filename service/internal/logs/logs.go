// Package logs writes what happens as lines that machines read: a JSON object each, or words and values.
package logs

import (
	"bytes"
	"encoding/json"
	"fmt"
	"io"
	"strconv"
	"strings"
	"sync"
	"time"
)

// Level is how much a line matters.
type Level int

// Levels, from what only who looks for a fault wants to what somebody must look at.
const (
	Debug Level = iota
	Info
	Warn
	Error
)

var names = []string{"debug", "info", "warn", "error"}

// LevelOf is the level of a name.
func LevelOf(name string) (Level, error) {
	for level, known := range names {
		if known == name {
			return Level(level), nil
		}
	}
	return Info, fmt.Errorf("%q is no level: %s", name, strings.Join(names, ", "))
}

// Logger writes lines of a level and above. It may be used by many goroutines; a nil one writes nothing.
type Logger struct {
	lock   sync.Mutex
	out    io.Writer
	least  Level
	isText bool
}

// New is a logger. As text it writes words and values, else JSON.
func New(out io.Writer, least Level, isText bool) *Logger {
	return &Logger{out: out, least: least, isText: isText}
}

// Debug tells what only who looks for a fault wants. Pairs are names and values in turn.
func (l *Logger) Debug(what string, pairs ...any) { l.line(Debug, what, pairs) }

// Info tells what is as it should be.
func (l *Logger) Info(what string, pairs ...any) { l.line(Info, what, pairs) }

// Warn tells what mends itself, or what a sender did wrong.
func (l *Logger) Warn(what string, pairs ...any) { l.line(Warn, what, pairs) }

// Error tells what somebody must look at.
func (l *Logger) Error(what string, pairs ...any) { l.line(Error, what, pairs) }

func (l *Logger) line(level Level, what string, pairs []any) {
	if l == nil || level < l.least {
		return
	}
	all := append([]any{"time", time.Now().UTC().Format(time.RFC3339Nano), "level", names[level], "message", what}, pairs...)
	line := asJSON
	if l.isText {
		line = asText
	}
	written := append(line(all), '\n')
	l.lock.Lock()
	defer l.lock.Unlock()
	l.out.Write(written)
}

// plain is a value as a log has it: errors and what has a text are that text.
func plain(value any) any {
	switch v := value.(type) {
	case error:
		return v.Error()
	case fmt.Stringer:
		return v.String()
	}
	return value
}

func asJSON(pairs []any) []byte {
	var out bytes.Buffer
	for i := 0; i+1 < len(pairs); i += 2 {
		out.WriteByte("{,"[min(i, 1)])
		name, _ := json.Marshal(fmt.Sprint(pairs[i]))
		value, err := json.Marshal(plain(pairs[i+1]))
		if err != nil {
			value, _ = json.Marshal(fmt.Sprint(pairs[i+1]))
		}
		out.Write(name)
		out.WriteByte(':')
		out.Write(value)
	}
	out.WriteByte('}')
	return out.Bytes()
}

func asText(pairs []any) []byte {
	var words []string
	for i := 0; i+1 < len(pairs); i += 2 {
		value := fmt.Sprint(plain(pairs[i+1]))
		if value == "" || strings.ContainsAny(value, " =\"\n\t") {
			value = strconv.Quote(value)
		}
		words = append(words, fmt.Sprintf("%v=%s", pairs[i], value))
	}
	return []byte(strings.Join(words, " "))
}

func min(a, b int) int {
	if a < b {
		return a
	}
	return b
}

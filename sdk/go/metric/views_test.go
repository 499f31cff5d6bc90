package metric

import (
	"errors"
	"fmt"
	"log"
	"os"
	"strings"
	"testing"
	"time"

	kotskhin "kotskhin.example/sdk/go"
	"kotskhin.example/sdk/go/attribute"
)

func kindOf(value string) attribute.KeyValue { return attribute.String("kind", value) }

// A view that can't be applied is told for each instrument, by its number, and the others of the instrument are applied.
func TestAViewThatCannotBeApplied(t *testing.T) {
	var refused refusals
	p := newProvider(t, WithOnRefused(refused.add), WithView(
		kotskhin.View{Rename: "all"}, kotskhin.View{Name: "requests", Keep: []string{}}, kotskhin.View{Name: "size", Bounds: []int64{2, 2}}))
	requests, err := p.Meter("app").Int64Counter("requests")
	if err != nil {
		t.Fatal(err)
	}
	if _, err := p.Meter("app").Int64Counter("requests"); err != nil {
		t.Fatal(err)
	}
	requests.Add(ctx, 1, WithAttributes(kindOf("a")))
	is(t, total(t, p), "{} 1")
	var why *ViewError
	if len(refused.list) != 1 || p.Refused() != 0 || !errors.As(refused.list[0], &why) || !errors.Is(why, kotskhin.ErrWildcardRename) {
		t.Fatal(refused.list)
	}
	is(t, refused.list[0].Error(), `"requests" of "app": view 0 can't be applied, and is passed over: kotskhin: WILDCARD_RENAME`)
	// (what no instrument could be declared with is refused at once)
	if _, err := NewMeterProvider(WithView(kotskhin.View{Name: "\xff"})); !errors.Is(err, kotskhin.ErrNotText) {
		t.Fatal(err)
	}
}

// An instrument whose stream another one feeds is refused by itself, whichever of them a view renames.
func TestAnInstrumentOfAnothersStream(t *testing.T) {
	p := newProvider(t, WithView(kotskhin.View{Name: "a", Rename: "requests"}), WithOnRefused(func(Refusal) {}))
	a, _ := p.Meter("app").Int64Counter("a")
	b, err := p.Meter("app").Int64Counter("requests")
	if !errors.Is(err, kotskhin.ErrSameStream) || !strings.Contains(err.Error(), `"requests" of "app"`) {
		t.Fatal(err)
	}
	if _, err := p.Meter("other").Int64Counter("requests"); err != nil {
		t.Fatal(err)
	}
	a.Add(ctx, 1)
	b.Add(ctx, 10)
	is(t, total(t, p), "{} 1")
	if p.Refused() != 1 {
		t.Fatal(p.Refused())
	}
	// (and so is one of which two views make one stream)
	p = newProvider(t, WithView(kotskhin.View{Name: "size"}, kotskhin.View{Name: "size", Keep: []string{}}))
	if _, err := p.Meter("app").Int64Counter("size"); !errors.Is(err, kotskhin.ErrSameStream) {
		t.Fatal(err)
	}
	if err := p.Start(); err != nil {
		t.Fatal(err)
	}
}

// Many instruments are declared in little time: none is compared with all the others.
func TestManyInstruments(t *testing.T) {
	p := newProvider(t, WithView(kotskhin.View{Name: "absent", Rename: "other"}))
	began := time.Now()
	for n := 0; n < 2000; n++ {
		if _, err := p.Meter("app").Int64Histogram(fmt.Sprint("size.", n), WithExplicitBucketBoundaries(10, 100)); err != nil {
			t.Fatal(err)
		}
	}
	if err := p.Start(); err != nil {
		t.Fatal(err)
	}
	if took := time.Since(began); took > 10*time.Second {
		t.Fatal(took)
	}
}

// Names are one but for the case of ASCII letters, and of no others.
func TestTheCaseOfNames(t *testing.T) {
	p := newProvider(t, WithView(kotskhin.View{Name: "\u212A", Aggregation: kotskhin.Drop}, kotskhin.View{Name: "Requests", Keep: []string{}}))
	k, _ := p.Meter("app").Int64Counter("k")
	if _, err := p.Meter("app").Int64Counter("\u212A"); !errors.Is(err, kotskhin.ErrBadName) {
		t.Fatal(err)
	}
	requests, _ := p.Meter("app").Int64Counter("REQUESTS")
	k.Add(ctx, 1)
	requests.Add(ctx, 2, WithAttributes(kindOf("a")))
	is(t, total(t, p), "{} 2")
	export, err := p.Collect()
	if err != nil {
		t.Fatal(err)
	}
	is(t, told(t, export, sum("k")), "{} 1")
}

// The first set beyond the limit is told once of each stream, at the collection that brings it.
func TestEachStreamTellsItsLimit(t *testing.T) {
	var refused refusals
	p := newProvider(t, WithCardinalityLimit(2), WithOnRefused(refused.add), WithView(kotskhin.View{Name: "b", Rename: "orders"}))
	a, _ := p.Meter("app").Int64Counter("requests")
	b, _ := p.Meter("app").Int64Counter("b")
	said := func(counter Int64Counter, sets int) string {
		for n := 0; n < sets; n++ {
			counter.Add(ctx, 1, WithAttributes(attribute.Int("n", n)))
		}
		total(t, p)
		var told []string
		for _, refusal := range refused.list {
			told = append(told, fmt.Sprintf("%s %v %d", refusal.Instrument, errors.Is(refusal, ErrCardinalityLimit), refusal.Recordings))
		}
		refused.list = nil
		return strings.Join(told, "; ")
	}
	is(t, said(a, 2), "")
	is(t, said(b, 2), "")
	is(t, said(a, 3), "requests true 0")
	is(t, said(a, 4), "")
	is(t, said(b, 4), "orders true 0")
	if p.Refused() != 0 {
		t.Fatal(p.Refused())
	}
}

// A message has the kit's name once, however many reasons it passes on.
func TestMessagesNameTheKitOnce(t *testing.T) {
	var lines strings.Builder
	log.SetOutput(&lines)
	log.SetFlags(0)
	defer func() { log.SetOutput(os.Stderr); log.SetFlags(log.LstdFlags) }()
	p := newProvider(t)
	lives, bad := p.Meter("app").Int64Counter("9 lives")
	requests, _ := p.Meter("app").Int64Counter("requests")
	requests.Add(ctx, -1)
	lives.Add(ctx, 1)
	_, late := p.Meter("app").Int64Counter("late")
	said := []string{bad.Error(), late.Error(), (&ExportError{Err: &NotTakenError{Points: 3}}).Error()}
	said = append(said, strings.Split(strings.TrimSpace(lines.String()), "\n")...)
	if len(said) != 5 {
		t.Fatal(said)
	}
	for _, text := range said {
		if strings.Count(text, "kotskhin: ") != 1 {
			t.Error(text)
		}
	}
	is(t, said[2], "kotskhin: an export was not brought: 3 points were not taken")
	is(t, said[3], `kotskhin: a recording of -1 by "requests" of "app" is refused: NEGATIVE: the instrument takes no value below 0`)
}

// Without a hook a view and a limit are logged once, as the first recording of each kind that is refused is.
func TestWithoutAHookAllIsLoggedOnce(t *testing.T) {
	var lines strings.Builder
	log.SetOutput(&lines)
	log.SetFlags(0)
	defer func() { log.SetOutput(os.Stderr); log.SetFlags(log.LstdFlags) }()
	p := newProvider(t, WithCardinalityLimit(1), WithView(kotskhin.View{Name: "requests", Rename: "9"}))
	requests, _ := p.Meter("app").Int64Counter("requests")
	for n := 0; n < 3; n++ {
		requests.Add(ctx, 1, WithAttributes(attribute.Int("n", n)))
		requests.Add(ctx, -1)
		total(t, p)
	}
	wanted := []string{"BAD_RENAME", "NEGATIVE", "CARDINALITY_LIMIT"}
	for _, line := range strings.Split(strings.TrimSpace(lines.String()), "\n") {
		if len(wanted) == 0 || !strings.Contains(line, wanted[0]) {
			t.Fatal(lines.String())
		}
		wanted = wanted[1:]
	}
	if len(wanted) > 0 {
		t.Fatal(lines.String())
	}
}

package figures

import (
	"strings"
	"testing"
)

func made() *Figures {
	f := New()
	f.Add(Requests, Labels("path", "/metrics", "status", "200"), 1)
	f.Add(Requests, Labels("path", "/metrics", "status", "200"), 2)
	f.Add(Points, Labels("path", "a\"b\\c\n"), 5)
	f.Reads(func(set func(family, labels string, value float64)) { set(Held, "", 7) })
	return f
}

func TestThePageHasFigures(t *testing.T) {
	page := made().Page("a 1\n", false)
	for _, wanted := range []string{
		"a 1\n# HELP kotskhin_gateway_requests_total ", "# TYPE kotskhin_gateway_requests_total counter\n",
		"\nkotskhin_gateway_requests_total{path=\"/metrics\",status=\"200\"} 3\n",
		"\nkotskhin_gateway_points_total{path=\"a\\\"b\\\\c\\n\"} 5\n",
		"# TYPE kotskhin_gateway_held_points gauge\nkotskhin_gateway_held_points 7\n",
	} {
		if !strings.Contains(page, wanted) {
			t.Fatalf("%q is not in\n%s", wanted, page)
		}
	}
	page = made().Page("a 1\n# EOF\n", true)
	if !strings.HasSuffix(page, "kotskhin_gateway_held_points 7\n# EOF\n") || strings.Count(page, "# EOF") != 1 {
		t.Fatal(page)
	}
	if !strings.Contains(page, "# TYPE kotskhin_gateway_requests counter\nkotskhin_gateway_requests_total{") {
		t.Fatal(page)
	}
}

// A service may have a metric of such a name: a page with one family twice could not be read.
func TestAFamilyOfASenderStays(t *testing.T) {
	own := "# TYPE kotskhin_gateway_held_points gauge\nkotskhin_gateway_held_points 1\n"
	page := made().Page(own, false)
	if strings.Count(page, "kotskhin_gateway_held_points") != 2 || !strings.Contains(page, "kotskhin_gateway_requests_total") {
		t.Fatal(page)
	}
}

// What is read may wait for somebody who counts meanwhile.
func TestCountsGoOnWhileFiguresAreRead(t *testing.T) {
	f := New()
	f.Reads(func(set func(family, labels string, value float64)) {
		counted := make(chan struct{})
		go func() { defer close(counted); f.Add(Adopted, "", 1) }()
		<-counted
		set(Held, "", 7)
	})
	if page := f.Page("", false); !strings.Contains(page, "kotskhin_gateway_held_points 7\n") {
		t.Fatal(page)
	}
}

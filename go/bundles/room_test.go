package bundles

import (
	"encoding/json"
	"fmt"
	"path/filepath"
	"strings"
	"testing"
	"time"

	"svid.example/go/v3/internal/agenttest"
)

// bracketed is a bundle with so many brackets. Each takes the validator a kilobyte of memory.
func bracketed(brackets int) string {
	return `{"keys":[` + strings.TrimSuffix(strings.Repeat(`{"":0},`, brackets-2), ",") + `]}`
}

// A bundle has at most 32,768 brackets, wherever it comes from: the last good one stays.
func TestTheMostBracketsOfABundle(t *testing.T) {
	most, over := bracketed(1<<15), bracketed(1<<15+1)
	name := filepath.Join(t.TempDir(), "bundle.json")
	agent := agenttest.Start(t)
	write(t, name, most)
	agent.Give(t, map[string]string{"spiffe://a": most})
	w, o := watch(t, nil, Spec{Domain: "b", Source: name}, ofAgent(t, agent.Address))
	o.await(t, "both", func() bool { return len(o.last) == 2 })
	write(t, name, over)
	agent.Give(t, map[string]string{"spiffe://a": over})
	w.Reload()
	for _, source := range []string{name, "a of " + agent.Address} {
		o.await(t, source, o.says("bundle not read; the last good one stays source "+source+" why it has more than 32768 of the brackets"))
	}
	if o.last["b"] != most {
		t.Errorf("%d bytes, and %d are due", len(o.last["b"]), len(most))
	}
	if err := bearable([]byte(strings.Repeat("[", 1<<14+1) + strings.Repeat("{", 1<<14))); err != errBrackets {
		t.Errorf("brackets of both kinds: %v", err)
	}
}

// All bundles together have at most 4 MiB, where each bracket counts as 32 bytes more. The heaviest are passed over, and that is logged
// once: however many strangers have great ones, a light one counts.
func TestTheMostOfAllBundles(t *testing.T) {
	folder := t.TempDir()
	name := func(domain string) string { return filepath.Join(folder, domain+".json") }
	// A bundle of that weight. Half of it is the weight of its brackets.
	weighing := func(weight int) string {
		const beside = len(`{"keys":[]}`) + 2*32
		one := len(`{"":0},`) + 32
		text := bracketed(2 + weight/2/one)
		return text + strings.Repeat(" ", weight-beside-(len(text)-len(`{"keys":[]}`))-32*(weight/2/one))
	}
	const quarter = 1 << 20
	if got := weight([]byte(weighing(quarter))); got != quarter {
		t.Fatalf("%d, want %d", got, quarter)
	}
	for _, domain := range []string{"a", "b", "c", "d"} {
		write(t, name(domain), weighing(quarter))
	}
	judged := map[string]int{}
	w, o := watch(t, func(options *Options) {
		options.Check = func(domain string, _ json.RawMessage) error { judged[domain]++; return nil }
	}, Folder(folder))
	wanted := func(domains string) {
		t.Helper()
		got := ""
		for _, domain := range strings.Split("a b c d e", " ") {
			_, counts := o.last[domain]
			if _, aged := w.Age(domain); aged != counts {
				t.Errorf("%s has an age: %v, and counts: %v", domain, aged, counts)
			}
			if counts {
				got += domain
			}
		}
		if got != domains {
			t.Errorf("%q count, and %q are due", got, domains)
		}
	}
	wanted("abcd") // They have exactly the room that there is.
	o.wantLines(t, 0, "bundle passed over")
	write(t, name("c"), weighing(quarter+1))
	w.Reload()
	wanted("abd")
	write(t, name("e"), spire)
	w.Reload()
	wanted("abde")
	w.Reload()
	o.wantLines(t, 1, "bundle passed over domain c source "+name("c")+" why "+errNoRoom.Error())
	o.wantLines(t, 1, "bundle passed over")
	remove(t, name("a"))
	w.Reload()
	wanted("bcde")
	o.wantLines(t, 1, "bundle counts again domain c source "+name("c"))
	if want := map[string]int{"a": 1, "b": 1, "c": 2, "d": 1, "e": 1}; fmt.Sprint(judged) != fmt.Sprint(want) {
		t.Errorf("judged %v, want %v", judged, want)
	}
}

// A bundle that its source gives again is not judged again, since that takes memory, and its refresh hint still counts.
func TestABundleThatIsGivenAgainIsNotJudged(t *testing.T) {
	w, _ := watch(t, nil)
	judged := 0
	w.options.Check = func(string, json.RawMessage) error { judged++; return nil }
	hinted := strings.Replace(spire, "300", "77", 1)
	for _, step := range []struct {
		source, text  string
		judged        int
		changed, bads bool
	}{
		{"one", hinted, 1, true, false}, {"one", hinted, 1, false, false}, {"one", "no bundle", 1, false, true}, {"one", hinted, 1, false, false},
		{"two", hinted, 2, false, false}, {"two", hinted, 2, false, false}, {"two", hinted + " ", 3, true, false},
	} {
		wait, changed := w.judge("example.org", step.source, []byte(step.text), nil)
		if want := 77 * time.Second; judged != step.judged || changed != step.changed || !step.bads && wait != want {
			t.Errorf("%s gives %q: judged %d times, changed %v, wait %v: want %+v", step.source, step.text, judged, changed, wait, step)
		}
		if w.faults[step.source] == "" == step.bads {
			t.Errorf("%s: %q", step.source, w.faults[step.source])
		}
	}
}

// Entries are looked at one after the other, whatever stands between them.
func TestEachEntry(t *testing.T) {
	for text, want := range map[string]string{
		`{"keys":null}`: "", `{"keys":[]}`: "", `{"keys": [ ] }`: "", ` { "keys" : [ 1 , {"a":[2,3]},"x",null ] , "b":1}`: `0 1;1 {"a":[2,3]};2 "x";3 null;`,
		`{"keys":["a,b",{"[":"]"}, "\"],\\" ,[[],{}],"\\",-1.5e3]}`: `0 "a,b";1 {"[":"]"};2 "\"],\\";3 [[],{}];4 "\\";5 -1.5e3;`,
	} {
		d, err := parse([]byte(text))
		if err != nil {
			t.Fatal(err)
		}
		got := ""
		d.each(func(number int, entry json.RawMessage) { got += fmt.Sprintf("%d %s;", number, entry) })
		if got != want {
			t.Errorf("%s: %q, want %q", text, got, want)
		}
	}
}

package main

import (
	"errors"
	"flag"
	"fmt"
	"math"
	"regexp"
	"strconv"
	"strings"
	"time"
)

// A list is an option that may be given more than once.
type list []string

func (l *list) String() string { return strings.Join(*l, ",") }

func (l *list) Set(value string) error {
	if value == "" {
		return errors.New("is empty")
	}
	*l = append(*l, value)
	return nil
}

// errNoTime is what an option says whose value is to be a time.
var errNoTime = errors.New("is no time: write it as 1h, 30s or 1h30m, or as a whole number of seconds")

// parseTime reads a time, which may not be negative: in the words of Go, or as a whole number of seconds.
func parseTime(text string) (time.Duration, error) {
	if n, err := strconv.ParseUint(text, 10, 64); err == nil {
		if n > math.MaxInt64/uint64(time.Second) {
			return 0, errors.New("is too long")
		}
		return time.Duration(n) * time.Second, nil
	}
	d, err := time.ParseDuration(text)
	if err != nil || d < 0 {
		return 0, errNoTime
	}
	return d, nil
}

// A period is an option whose value is a time.
type period time.Duration

func (p *period) String() string { return time.Duration(*p).String() }

func (p *period) Set(text string) error {
	d, err := parseTime(text)
	*p = period(d)
	return err
}

// seconds is an option whose value is a time of whole seconds. It tells 0 from not given.
type seconds struct {
	value uint64
	given bool
}

func (s *seconds) String() string {
	if !s.given {
		return ""
	}
	return (time.Duration(s.value) * time.Second).String()
}

func (s *seconds) Set(text string) error {
	d, err := parseTime(text)
	if err != nil {
		return err
	}
	if d%time.Second != 0 {
		return errors.New("is no whole number of seconds")
	}
	*s = seconds{uint64(d / time.Second), true}
	return nil
}

// A moment is an option whose value is a time since 1970.
type moment struct{ seconds }

func (m *moment) Set(text string) error {
	value, err := strconv.ParseUint(text, 10, 64)
	if err != nil {
		return errors.New("is no moment: write it as seconds since 1970")
	}
	m.seconds = seconds{value, true}
	return nil
}

// parseWords reads the options of a command line. What is wrong with them is one line, which names the nearest option. A command line that
// asks for help, also behind an argument, is the error *helpAsked.
func parseWords(f *flag.FlagSet, args []string) error {
	err := f.Parse(args)
	asked := errors.Is(err, flag.ErrHelp)
	for _, word := range f.Args() {
		asked = asked || err == nil && isHelp(word)
	}
	switch {
	case asked:
		return &helpAsked{f}
	case err != nil:
		return worded(f, err)
	}
	return nil
}

// isHelp says whether a word asks for help.
func isHelp(word string) bool { return word == "--help" || word == "-help" || word == "-h" }

// helpAsked is no fault: fail prints the help of a command, and its status is that of a success.
type helpAsked struct{ of *flag.FlagSet }

func (h *helpAsked) Error() string { return flag.ErrHelp.Error() }

// text is the help of a command: its synopsis, and its options with what lists/svidd.toml says of each.
func (h *helpAsked) text() string {
	var b strings.Builder
	command := strings.TrimPrefix(h.of.Name(), "svidd ")
	for _, line := range strings.Split(usage, "\n") {
		words := strings.Fields(line)
		if len(words) > 1 && words[0] == "svidd" && words[1] == command {
			fmt.Fprintf(&b, "usage: %s\n", strings.Join(words, " "))
		}
		if strings.HasPrefix(line, "BUNDLES: ") && strings.Contains(b.String(), " BUNDLES ") {
			fmt.Fprintf(&b, "\n%s\n", line)
		}
	}
	before := "\n"
	h.of.VisitAll(func(option *flag.Flag) {
		value, says := flag.UnquoteUsage(option)
		if initial := optionOf(command, option.Name).initial; initial != "" {
			says += " (default " + initial + ")"
		}
		line := strings.TrimRight("  --"+option.Name+" "+value, " ")
		fmt.Fprintf(&b, "%s%s\n        %s\n", before, line, strings.ReplaceAll(says, "\n", "\n        "))
		before = ""
	})
	return b.String()
}

// faults of options are in these words, which package flag has.
var (
	unknownOption = regexp.MustCompile(`^flag provided but not defined: -(.*)$`)
	badValue      = regexp.MustCompile(`(?s)^invalid (?:boolean )?value (".*") for (?:flag )?-([a-z-]+): (.*)$`)
	noValue       = regexp.MustCompile(`^flag needs an argument: -(.*)$`)
)

// worded says what is wrong with an option.
func worded(f *flag.FlagSet, err error) error {
	text := err.Error()
	if it := unknownOption.FindStringSubmatch(text); it != nil {
		near := meant(f, it[1])
		if near == "" {
			near = "."
		}
		return fmt.Errorf("no option is named --%s%s '%s --help' lists them", it[1], near, f.Name())
	}
	if it := badValue.FindStringSubmatch(text); it != nil {
		if strings.HasPrefix(text, "invalid boolean") {
			it[3] = "is neither true nor false"
		}
		return fmt.Errorf("--%s: %s %s", it[2], it[1], it[3])
	}
	if it := noValue.FindStringSubmatch(text); it != nil {
		return fmt.Errorf("--%s wants a value. '%s --help' says which", it[1], f.Name())
	}
	return errors.New(strings.TrimPrefix(text, "flag: "))
}

// meant asks whether the nearest option was meant; "" where none is near.
func meant(f *flag.FlagSet, name string) string {
	var names []string
	f.VisitAll(func(option *flag.Flag) { names = append(names, option.Name) })
	if near := nearest(name, names); near != "" {
		return fmt.Sprintf(": did you mean --%s?", near)
	}
	return ""
}

// nearest returns the name that is spelled most like this one: it begins with this one, or a third of the letters and one more differ at the most. It is ""
// where there is none.
func nearest(name string, names []string) (near string) {
	name = strings.ToLower(strings.ReplaceAll(strings.Trim(name, "-"), "_", "-"))
	least := len(name)/3 + 1
	for _, one := range names {
		apart := distance(name, one)
		if len(name) >= 3 && strings.HasPrefix(one, name) {
			apart = 0
		}
		if apart < least || apart == least && near == "" {
			near, least = one, apart
		}
	}
	return near
}

// distance is how many letters must be put, taken out, changed or swapped with the next one to make b of a.
func distance(a, b string) int {
	var before, last, next []int
	for k := 0; k <= len(b); k++ {
		last = append(last, k)
	}
	for i := 1; i <= len(a); i++ {
		next = []int{i}
		for k := 1; k <= len(b); k++ {
			best := last[k-1]
			if a[i-1] != b[k-1] {
				best++
			}
			best = min(best, min(last[k]+1, next[k-1]+1))
			if i > 1 && k > 1 && a[i-1] == b[k-2] && a[i-2] == b[k-1] {
				best = min(best, before[k-2]+1)
			}
			next = append(next, best)
		}
		before, last = last, next
	}
	return last[len(b)]
}

func min(a, b int) int {
	if a < b {
		return a
	}
	return b
}

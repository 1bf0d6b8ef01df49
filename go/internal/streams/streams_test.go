package streams

import (
	"encoding/json"
	"strings"
	"testing"
	"time"
)

// A stream is fit by each setting that is due, and unfit by each other value: on fewer servers, for less time, for shorter messages.
func TestWhatASettingMustBe(t *testing.T) {
	for _, row := range []struct {
		setting   Setting
		good, bad []string
	}{
		{Replicas(3), []string{"3", "5"}, []string{"1", "2", "0", "", "null", `"3"`}},
		{Age(time.Hour), []string{"0", "3600000000000", "3600000000001"}, []string{"3599999999999", "-1", "", `"1h"`}},
		{MessageSize(64), []string{"-1", "64", "1000"}, []string{"63", "0", ""}},
		{Exactly("file"), []string{`"file"`}, []string{`"memory"`, "", "null"}},
		{Exactly(true), []string{"true"}, []string{"false", "", "null"}},
		{Exactly(false), []string{"false", "", "null"}, []string{"true", `"false"`}},
		{Any, []string{"1", "", "true"}, nil},
	} {
		for good, all := range map[bool][]string{true: row.good, false: row.bad} {
			for _, value := range all {
				if is := row.setting.Good(json.RawMessage(value)); is != good {
					t.Errorf("due %s, %q: %v", row.setting.Due, value, is)
				}
			}
		}
	}
}

// A setting that nobody here knows makes a stream unfit, unless it is off: a later server may have one by which messages go.
func TestASettingOfALaterServer(t *testing.T) {
	due := map[string]Setting{"storage": Exactly("file")}
	for value, want := range map[string]string{"true": "forgets_soon is true and must be left out", "5": "forgets_soon is 5", "false": "", "0": "", `""`: "", "[]": "", "{}": "", "null": ""} {
		wrong, isFixed := Config{"storage": json.RawMessage(`"file"`), "forgets_soon": json.RawMessage(value), "metadata": json.RawMessage(`{"a":"b"}`)}.Wrong(due)
		if !strings.HasPrefix(wrong, want) || (wrong == "") != (want == "") || isFixed {
			t.Errorf("%s: %q, and that is fixed: %v", value, wrong, isFixed)
		}
	}
	if wrong, isFixed := (Config{}).Wrong(due); wrong != `storage is missing and must be "file"` || !isFixed {
		t.Errorf("%q, and that is fixed: %v", wrong, isFixed)
	}
}

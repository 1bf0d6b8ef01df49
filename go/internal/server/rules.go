package server

import (
	"errors"

	"svid.example/go/v3/svid"
)

// Rules say for whom a token must be, and of whom. The member counts them together. Nobody may change a pair.
type Rules struct {
	Audiences []string
	Allow     []string // patterns of the SPIFFE IDs that may call; nil allows all
}

var errNoCaller = errors.New("the list of who may call is empty: name who may call, or leave the list out (nil) to let all call")

// CheckCallers checks patterns of who may call. nil lets all call. An empty list is an error: it stands where some were meant.
func CheckCallers(allow []string) error {
	if allow != nil && len(allow) == 0 {
		return errNoCaller
	}
	for _, pattern := range allow {
		if err := svid.CheckPattern(pattern); err != nil {
			return err
		}
	}
	return nil
}

// A Ruling lets other rules count. Where Err says why they do not, nothing has changed.
type Ruling struct {
	Rules *Rules
	Err   error
}

func (r *Ruling) happen(m *Machine) {
	if r.Err = m.validator.SetRules(r.Rules.Audiences, r.Rules.Allow); r.Err == nil {
		m.rules = r.Rules
	}
}

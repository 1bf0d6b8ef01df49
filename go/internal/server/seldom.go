package server

import "time"

const (
	// seldomTime is between two lines about one cause.
	seldomTime = time.Minute
	// mostCauses is how many causes have a line each in that time. An error may name a file or an offset, so causes may have no end.
	mostCauses = 16
)

// A seldom logs errors of things that are tried again and again. For each cause, which is the error's text, it lets one line a minute
// through, and counts the others: the next line says how many there were (unlogged).
type seldom struct {
	said     map[string]time.Duration // when the last line about a cause went out, of the last minute alone
	unlogged uint64
}

// log logs an error, or counts it.
func (s *seldom) log(now time.Duration, log *Log, event string, err error) {
	if unlogged, ok := s.speak(now, err.Error()); ok {
		log.Error(event, err, "unlogged", unlogged)
	}
}

// speak says whether a line about a cause may go out now, and how many did not since the last line.
func (s *seldom) speak(now time.Duration, cause string) (unlogged uint64, ok bool) {
	for cause, at := range s.said {
		if now-at >= seldomTime {
			delete(s.said, cause)
		}
	}
	if _, is := s.said[cause]; is || len(s.said) == mostCauses {
		s.unlogged++
		return 0, false
	}
	if s.said == nil {
		s.said = make(map[string]time.Duration)
	}
	s.said[cause] = now
	unlogged, s.unlogged = s.unlogged, 0
	return unlogged, true
}

package main

import (
	"context"
	"errors"
	"flag"
	"fmt"
	"sort"
	"strings"
	"sync"

	"svid.example/go/v3/guard"
)

// changeable are the options that a running sidecar takes over. The others count after a restart.
var changeable = map[string]bool{"audience": true, "allow": true, "bundle": true, "bundle-id": true, "bundle-ca": true, "bundles": true, "workload-api": true, "log": true, "log-addresses": true}

// sources are those that say where bundles come from.
var sources = map[string]bool{"bundle": true, "bundle-id": true, "bundle-ca": true, "bundles": true, "workload-api": true}

// valuesOf are the options as text, by their names. Other values make another text.
func valuesOf(f *flag.FlagSet) map[string]string {
	all := map[string]string{}
	f.VisitAll(func(option *flag.Flag) {
		all[option.Name] = option.Value.String()
		if l, ok := option.Value.(*list); ok {
			all[option.Name] = fmt.Sprintf("%q", []string(*l)) // A value may have a comma.
		}
	})
	return all
}

// take lets other options count, all or none: what may fail comes first.
func (s *sidecar) take(now *options, follow bool) error {
	specs, err := now.specs()
	if err != nil {
		return err
	}
	if err := s.guard.Admit(now.audiences, now.allow); err != nil {
		return err
	}
	if follow {
		return s.guard.Follow(specs) // (It fails for bad specs alone, and specs has looked.)
	}
	return nil
}

// An outcome is what became of a reload.
type outcome struct {
	done guard.Reloaded
	err  error
}

// waits are those who wait for the outcome of the next reload.
type waits struct {
	mu  sync.Mutex
	all []chan outcome
}

// add lets one more wait.
func (w *waits) add() chan outcome {
	w.mu.Lock()
	defer w.mu.Unlock()
	one := make(chan outcome, 1)
	w.all = append(w.all, one)
	return one
}

// take takes out all who wait: a reload that begins now sees all that theirs would.
func (w *waits) take() []chan outcome {
	w.mu.Lock()
	defer w.mu.Unlock()
	all := w.all
	w.all = nil
	return all
}

// reloaded lets the options and the bundles be read again, and waits for that until ctx ends, since a file may hang.
func (s *sidecar) reloaded(ctx context.Context) (guard.Reloaded, error) {
	one := s.waits.add()
	s.reload()
	select {
	case is := <-one:
		return is.done, is.err
	case <-ctx.Done():
		return guard.Reloaded{}, ctx.Err()
	}
}

// reloadNow reads the options and the bundles again. An error says why the options, or bundles of files, stay as they were.
func (s *sidecar) reloadNow() (guard.Reloaded, error) {
	done, followed, err := s.reread()
	if !followed {
		s.guard.Reload()
	}
	if fault := s.guard.FileFault(); err == nil && fault != nil {
		err = fmt.Errorf("a trust bundle can't be read, and the last good one stays: %w", fault)
	}
	return done, err
}

// reread reads the options again, as the start read them, and takes over what can change. It logs what has changed, and what counts
// only after a restart. Where something is wrong, that is logged, and nothing changes. It tells whether bundles come from elsewhere
// now, and so were read again.
func (s *sidecar) reread() (done guard.Reloaded, followed bool, err error) {
	var now options
	f := now.flags()
	err = parse(f, &now.config, s.args)
	if all := now.problems(); err == nil && len(all) > 0 {
		err = errors.New(strings.Join(all, "; "))
	}
	if err != nil {
		return done, false, s.stay(err)
	}
	changed, later := []string{}, []string{}
	values := valuesOf(f)
	for name, value := range values {
		if s.given[name] == value {
			continue
		}
		if !changeable[name] {
			later = append(later, name)
			continue
		}
		changed = append(changed, name)
		followed = followed || sources[name]
	}
	if err := s.take(&now, followed); err != nil {
		return done, false, s.stay(err)
	}
	s.log.SetLevel(logLevels[now.log])
	s.log.SetAddresses(logAddresses[now.logAddresses])
	for _, name := range changed {
		s.given[name] = values[name]
	}
	sort.Strings(changed)
	sort.Strings(later)
	s.log.Event("options", "changed", changed)
	if len(later) > 0 {
		s.log.Error("options", fmt.Errorf("--%s counts only after a restart", strings.Join(later, ", --")), "restart", later)
	}
	return guard.Reloaded{Changed: changed, Restart: later}, followed, nil
}

// stay logs why the options stay.
func (s *sidecar) stay(err error) error {
	err = fmt.Errorf("the options stay as they are: %w", err)
	s.log.Error("options", err)
	return err
}

package server

import (
	"context"
	"errors"
	"fmt"
	"net/http"
	"net/http/httptest"
	"strings"
	"testing"
	"time"
)

// withdraw withdraws a token of no key that ever was, on the admin socket.
func withdraw(e *Engine) *httptest.ResponseRecorder {
	w := httptest.NewRecorder()
	body := fmt.Sprintf(`{"key":"%064d","exp":%d}`, 0, moment+1)
	e.Admin(nil).ServeHTTP(w, httptest.NewRequest(http.MethodPost, "/withdraw", strings.NewReader(body)))
	return w
}

// A withdrawal that nothing keeps is answered with a warning.
func TestAWithdrawalThatIsInMemoryAlone(t *testing.T) {
	for name, row := range map[string]struct {
		options Options
		warns   bool
	}{
		"reuse":                {Options{Mode: Reuse}, true},
		"reuse, with a folder": {Options{Mode: Reuse, Journal: &disk{}}, false},
		"once, with a folder":  {Options{Mode: Once, Journal: &disk{}}, false},
	} {
		w := withdraw(ready(t, engine(t, row.options)))
		if w.Code != 200 || strings.Contains(w.Body.String(), `"warning":"the sidecar forgets this withdrawal`) != row.warns {
			t.Errorf("%s: %d %s", name, w.Code, w.Body)
		}
	}
	b := &broker{}
	e := ready(t, engine(t, Options{Mode: Reuse, Grouped: true}))
	b.join(e)
	if w := withdraw(e); w.Code != 200 || strings.Contains(w.Body.String(), "warning") {
		t.Errorf("reuse, in a group: %d %s", w.Code, w.Body)
	}
}

// A withdrawal that does not reach the disk says so of itself. It can be made again.
func TestAWithdrawalOfAFullDisk(t *testing.T) {
	kept := &disk{fault: errors.New("no space left on device")}
	e := ready(t, engine(t, Options{Mode: Once, Journal: kept}))
	if w := withdraw(e); w.Code != 503 || w.Body.String() != "withdrawn here, but the withdrawal could not be kept: no space left on device\n" {
		t.Errorf("%d %s", w.Code, w.Body)
	}
	kept.mu.Lock()
	kept.fault = nil
	kept.mu.Unlock()
	if w := withdraw(e); w.Code != 200 || kept.Size() == 0 {
		t.Errorf("again: %d %s, %d bytes", w.Code, w.Body, kept.Size())
	}
}

// One that the disk does not take, or does not answer to, reaches the group all the same.
func TestAWithdrawalReachesTheGroupWithoutADisk(t *testing.T) {
	for _, mode := range []Mode{Once, Strict, Reuse} {
		for what, kept := range map[string]*disk{"full": {fault: errors.New("no space left on device")}, "hangs": {hangs: make(chan struct{})}} {
			o := inStrict(Options{Journal: kept})
			if kept.hangs != nil {
				o.Wait = time.Second // (and the store has that time, too)
			}
			o.Mode = mode
			store := newShop()
			e := store.use(t, ready(t, engine(t, o)))
			w := withdraw(e)
			if w.Code != 503 || !strings.Contains(w.Body.String(), "withdrawn here, but the withdrawal could not be kept: ") {
				t.Errorf("%s, the disk is %s: %d %s", mode, what, w.Code, w.Body)
			}
			if these, _, err := store.Withdrawals(context.Background(), ""); err != nil || len(these) != 1 {
				t.Errorf("%s, the disk is %s: the store has %d withdrawals (%v)", mode, what, len(these), err)
			}
			if kept.hangs != nil {
				close(kept.hangs)
			}
		}
	}
}
